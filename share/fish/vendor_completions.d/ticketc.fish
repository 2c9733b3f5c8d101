# Completes the words of ticketc in fish. tools/install_test compares this file with what `ticketc --help` says.

complete -c ticketc -f
complete -c ticketc -n 'test (count (commandline -opc)) -eq 1' -a order
complete -c ticketc -n 'test (count (commandline -opc)) -eq 1' -a check
complete -c ticketc -n 'test (count (commandline -opc)) -eq 1' -a emit
complete -c ticketc -n 'test (count (commandline -opc)) -eq 1' -a source
complete -c ticketc -n 'test (count (commandline -opc)) -eq 1' -a code
complete -c ticketc -n 'test (count (commandline -opc)) -eq 1' -a lift
complete -c ticketc -n 'test (count (commandline -opc)) -eq 1' -a drop
complete -c ticketc -n 'test (count (commandline -opc)) -eq 1' -a run
