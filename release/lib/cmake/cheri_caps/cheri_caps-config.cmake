# For CMake: find_package(cheri_caps 1 CONFIG), where CMAKE_PREFIX_PATH has the folder above lib/. It finds that folder
# from where this file stands, so the folder may be moved.
#   cheri_caps::cheri_caps   the archive, which needs no other library
#   cheri_caps::shared       the shared library
get_filename_component(_cheri_caps_prefix "${CMAKE_CURRENT_LIST_DIR}/../../.." ABSOLUTE)
if(NOT TARGET cheri_caps::cheri_caps)
  add_library(cheri_caps::cheri_caps STATIC IMPORTED)
  set_target_properties(cheri_caps::cheri_caps PROPERTIES
    IMPORTED_LOCATION "${_cheri_caps_prefix}/lib/libcheri_caps.a"
    INTERFACE_INCLUDE_DIRECTORIES "${_cheri_caps_prefix}/include")
  add_library(cheri_caps::shared SHARED IMPORTED)
  set_target_properties(cheri_caps::shared PROPERTIES
    IMPORTED_LOCATION "${_cheri_caps_prefix}/lib/libcheri_caps.so.1"
    IMPORTED_SONAME "libcheri_caps.so.1"
    INTERFACE_INCLUDE_DIRECTORIES "${_cheri_caps_prefix}/include")
endif()
unset(_cheri_caps_prefix)
