# find_package(etherparse) defines etherparse::etherparse, the archive, and etherparse::shared, the shared object.
get_filename_component(etherparse_prefix "${CMAKE_CURRENT_LIST_DIR}/../../.." ABSOLUTE)
if(NOT TARGET etherparse::etherparse)
  add_library(etherparse::etherparse STATIC IMPORTED)
  set_target_properties(etherparse::etherparse PROPERTIES
    IMPORTED_LOCATION "${etherparse_prefix}/lib/libetherparse_c.a"
    IMPORTED_LINK_INTERFACE_LANGUAGES C
    INTERFACE_INCLUDE_DIRECTORIES "${etherparse_prefix}/include")
endif()
if(NOT TARGET etherparse::shared AND EXISTS "${etherparse_prefix}/lib/libetherparse_c.so")
  add_library(etherparse::shared SHARED IMPORTED)
  set_target_properties(etherparse::shared PROPERTIES
    IMPORTED_LOCATION "${etherparse_prefix}/lib/libetherparse_c.so"
    INTERFACE_INCLUDE_DIRECTORIES "${etherparse_prefix}/include")
endif()
unset(etherparse_prefix)
