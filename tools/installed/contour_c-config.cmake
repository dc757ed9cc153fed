# What find_package(contour_c) gives: contour_c::contour_c is the static library, contour_c::shared the shared one.
# Both stand beside this file, wherever the folder has been moved to.
get_filename_component(contour_c_PREFIX "${CMAKE_CURRENT_LIST_DIR}/../../.." ABSOLUTE)

if(NOT TARGET contour_c::contour_c)
  add_library(contour_c::contour_c STATIC IMPORTED)
  set_target_properties(contour_c::contour_c PROPERTIES
    IMPORTED_LOCATION "${contour_c_PREFIX}/lib/libcontour_c.a"
    INTERFACE_INCLUDE_DIRECTORIES "${contour_c_PREFIX}/include")

  add_library(contour_c::shared SHARED IMPORTED)
  set_target_properties(contour_c::shared PROPERTIES
    IMPORTED_LOCATION "${contour_c_PREFIX}/lib/libcontour_c.so.@VERSION@"
    IMPORTED_SONAME "libcontour_c.so.@SOVERSION@"
    INTERFACE_INCLUDE_DIRECTORIES "${contour_c_PREFIX}/include")
endif()
