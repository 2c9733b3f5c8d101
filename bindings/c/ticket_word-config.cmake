# SPDX-License-Identifier: Apache-2.0
# find_package(ticket_word) gives the target ticket_word::ticket_word.
get_filename_component(_ticket_word_prefix "${CMAKE_CURRENT_LIST_DIR}/../../.." ABSOLUTE)
if(NOT TARGET ticket_word::ticket_word)
  add_library(ticket_word::ticket_word STATIC IMPORTED)
  set_target_properties(ticket_word::ticket_word PROPERTIES
    IMPORTED_LOCATION "${_ticket_word_prefix}/lib/libticket_word.a"
    INTERFACE_INCLUDE_DIRECTORIES "${_ticket_word_prefix}/include")
endif()
unset(_ticket_word_prefix)
