# The library for C and C++ of the folder that this file is in:
#   lupinanon::lupinanon_static    liblupinanon.a
#   lupinanon::lupinanon_shared    liblupinanon.so.0
#   lupinanon::lupinanon           the shared one if BUILD_SHARED_LIBS is on where it is found, and else the static one
if(TARGET lupinanon::lupinanon)
  return()
endif()
get_filename_component(_lupinanon_prefix "${CMAKE_CURRENT_LIST_DIR}/../../.." ABSOLUTE)

add_library(lupinanon::lupinanon_static STATIC IMPORTED)
set_target_properties(lupinanon::lupinanon_static PROPERTIES
  IMPORTED_LINK_INTERFACE_LANGUAGES C
  IMPORTED_LOCATION "${_lupinanon_prefix}/lib/liblupinanon.a"
  INTERFACE_INCLUDE_DIRECTORIES "${_lupinanon_prefix}/include")

add_library(lupinanon::lupinanon_shared SHARED IMPORTED)
set_target_properties(lupinanon::lupinanon_shared PROPERTIES
  IMPORTED_LOCATION "${_lupinanon_prefix}/lib/liblupinanon.so.0"
  IMPORTED_SONAME liblupinanon.so.0
  INTERFACE_INCLUDE_DIRECTORIES "${_lupinanon_prefix}/include")

set(_lupinanon_linked lupinanon::lupinanon_static)
if(BUILD_SHARED_LIBS)
  set(_lupinanon_linked lupinanon::lupinanon_shared)
endif()
add_library(lupinanon::lupinanon INTERFACE IMPORTED)
set_target_properties(lupinanon::lupinanon PROPERTIES INTERFACE_LINK_LIBRARIES ${_lupinanon_linked})

unset(_lupinanon_linked)
unset(_lupinanon_prefix)
