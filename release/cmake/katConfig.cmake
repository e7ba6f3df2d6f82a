# SPDX-License-Identifier: MIT OR Apache-2.0
# What `find_package(kat)` of CMake reads from lib/cmake/kat of an installation:
#   kat::kat         the shared object, or the archive where the installation has no shared object
#   kat::kat_static  the archive
get_filename_component(_kat_lib "${CMAKE_CURRENT_LIST_DIR}/../.." REALPATH)
get_filename_component(_kat_include "${_kat_lib}/../include" ABSOLUTE)

if(NOT TARGET kat::kat_static)
    add_library(kat::kat_static STATIC IMPORTED)
    set_target_properties(kat::kat_static PROPERTIES
        IMPORTED_LOCATION "${_kat_lib}/libkat.a"
        IMPORTED_LINK_INTERFACE_LANGUAGES C
        INTERFACE_INCLUDE_DIRECTORIES "${_kat_include}")
endif()

if(NOT TARGET kat::kat)
    if(EXISTS "${_kat_lib}/libkat.so.0")
        add_library(kat::kat SHARED IMPORTED)
        set_target_properties(kat::kat PROPERTIES
            IMPORTED_LOCATION "${_kat_lib}/libkat.so.0"
            IMPORTED_SONAME libkat.so.0
            INTERFACE_INCLUDE_DIRECTORIES "${_kat_include}")
    else()
        add_library(kat::kat INTERFACE IMPORTED)
        set_target_properties(kat::kat PROPERTIES INTERFACE_LINK_LIBRARIES kat::kat_static)
    endif()
endif()

unset(_kat_lib)
unset(_kat_include)
