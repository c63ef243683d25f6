# find_package(arinduleu) gives the target arinduleu::arinduleu: the header, and the static library to link.
# The folder that all was installed in, wherever it is now.
get_filename_component(_arinduleu_prefix "${CMAKE_CURRENT_LIST_DIR}/../../.." ABSOLUTE)

if(NOT EXISTS "${_arinduleu_prefix}/lib/libarinduleu.a")
  set(arinduleu_FOUND FALSE)
  set(arinduleu_NOT_FOUND_MESSAGE "${_arinduleu_prefix}/lib/libarinduleu.a is not there")
elseif(NOT TARGET arinduleu::arinduleu)
  add_library(arinduleu::arinduleu STATIC IMPORTED)
  set_target_properties(arinduleu::arinduleu PROPERTIES
    IMPORTED_LOCATION "${_arinduleu_prefix}/lib/libarinduleu.a"
    INTERFACE_INCLUDE_DIRECTORIES "${_arinduleu_prefix}/include")
endif()
unset(_arinduleu_prefix)
