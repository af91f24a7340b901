# The targets pelgaisti::pelgaisti, and pelgaisti::shared if the shared library is installed, for find_package(pelgaisti). It lies in PREFIX/lib/cmake/pelgaisti, and finds PREFIX from there.
get_filename_component(_pelgaisti_prefix "${CMAKE_CURRENT_LIST_DIR}/../../.." ABSOLUTE)
if(NOT TARGET pelgaisti::pelgaisti)
    add_library(pelgaisti::pelgaisti STATIC IMPORTED)
    set_target_properties(pelgaisti::pelgaisti PROPERTIES
        IMPORTED_LOCATION "${_pelgaisti_prefix}/lib/libpelgaisti.a"
        INTERFACE_INCLUDE_DIRECTORIES "${_pelgaisti_prefix}/include")
endif()
file(GLOB _pelgaisti_shared "${_pelgaisti_prefix}/lib/libpelgaisti.so.*")
if(_pelgaisti_shared AND NOT TARGET pelgaisti::shared)
    get_filename_component(_pelgaisti_soname "${_pelgaisti_shared}" NAME)
    add_library(pelgaisti::shared SHARED IMPORTED)
    set_target_properties(pelgaisti::shared PROPERTIES
        IMPORTED_LOCATION "${_pelgaisti_shared}"
        IMPORTED_SONAME "${_pelgaisti_soname}"
        INTERFACE_INCLUDE_DIRECTORIES "${_pelgaisti_prefix}/include")
endif()
unset(_pelgaisti_shared)
unset(_pelgaisti_soname)
unset(_pelgaisti_prefix)
