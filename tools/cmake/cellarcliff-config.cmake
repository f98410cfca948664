# find_package(cellarcliff): the targets cellarcliff::cellarcliff and cellarcliff::cellarcliff_static.
if("@VERSION@" MATCHES "unproved$")
  message(NOTICE "cellarcliff @VERSION@: this library is built without its proof; ./rxbook --install PREFIX in a checkout proves it")
endif()
get_filename_component(_cellarcliff_prefix "${CMAKE_CURRENT_LIST_DIR}/../../.." ABSOLUTE)
if(NOT TARGET cellarcliff::cellarcliff)
  add_library(cellarcliff::cellarcliff SHARED IMPORTED)
  set_target_properties(cellarcliff::cellarcliff PROPERTIES
    IMPORTED_LOCATION "${_cellarcliff_prefix}/lib/libcellarcliff.so.@NUMBER@"
    IMPORTED_SONAME "libcellarcliff.so.@NUMBER@"
    INTERFACE_INCLUDE_DIRECTORIES "${_cellarcliff_prefix}/include")
  add_library(cellarcliff::cellarcliff_static STATIC IMPORTED)
  set_target_properties(cellarcliff::cellarcliff_static PROPERTIES
    IMPORTED_LOCATION "${_cellarcliff_prefix}/lib/libcellarcliff.a"
    INTERFACE_INCLUDE_DIRECTORIES "${_cellarcliff_prefix}/include")
endif()
unset(_cellarcliff_prefix)
