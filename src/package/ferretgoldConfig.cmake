# Gives ferretgold::ferretgold, the shared library, ferretgold::static, and ferretgold::check, which
# ends a program where two threads meet in one client; and where there was xxhash.h ferretgold::file, which
# is linked before one of them.
get_filename_component(_ferretgold_libraries "${CMAKE_CURRENT_LIST_DIR}/../.." ABSOLUTE)
get_filename_component(_ferretgold_headers "${CMAKE_CURRENT_LIST_DIR}/@INCLUDE@" ABSOLUTE)

if(NOT TARGET ferretgold::ferretgold)
  add_library(ferretgold::ferretgold SHARED IMPORTED)
  add_library(ferretgold::static STATIC IMPORTED)
  add_library(ferretgold::check STATIC IMPORTED)
  set_target_properties(ferretgold::ferretgold PROPERTIES
    IMPORTED_LOCATION "${_ferretgold_libraries}/libferretgold.so.@VERSION@"
    IMPORTED_SONAME "libferretgold.so.@ABI@")
  set_target_properties(ferretgold::static PROPERTIES
    IMPORTED_LOCATION "${_ferretgold_libraries}/libferretgold.a")
  set_target_properties(ferretgold::check PROPERTIES
    IMPORTED_LOCATION "${_ferretgold_libraries}/libferretgold_check.a"
    INTERFACE_COMPILE_DEFINITIONS FERRETGOLD_CHECK)
  set_target_properties(ferretgold::ferretgold ferretgold::static ferretgold::check PROPERTIES
    INTERFACE_INCLUDE_DIRECTORIES "${_ferretgold_headers}")
endif()

if(NOT TARGET ferretgold::file AND EXISTS "${_ferretgold_libraries}/libferretgold_file.a")
  add_library(ferretgold::file STATIC IMPORTED)
  set_target_properties(ferretgold::file PROPERTIES
    IMPORTED_LOCATION "${_ferretgold_libraries}/libferretgold_file.a"
    INTERFACE_INCLUDE_DIRECTORIES "${_ferretgold_headers}")
endif()
