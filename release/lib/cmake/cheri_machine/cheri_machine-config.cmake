# For CMake: find_package(cheri_machine 1 CONFIG), where CMAKE_PREFIX_PATH has the folder above lib/. It finds that folder
# from where this file stands, so the folder may be moved.
#   cheri_machine::cheri_machine   the archive, which needs the C library alone
#   cheri_machine::shared       the shared library
get_filename_component(_cheri_machine_prefix "${CMAKE_CURRENT_LIST_DIR}/../../.." ABSOLUTE)
if(NOT TARGET cheri_machine::cheri_machine)
  add_library(cheri_machine::cheri_machine STATIC IMPORTED)
  set_target_properties(cheri_machine::cheri_machine PROPERTIES
    IMPORTED_LOCATION "${_cheri_machine_prefix}/lib/libcheri_machine.a"
    INTERFACE_INCLUDE_DIRECTORIES "${_cheri_machine_prefix}/include")
  add_library(cheri_machine::shared SHARED IMPORTED)
  set_target_properties(cheri_machine::shared PROPERTIES
    IMPORTED_LOCATION "${_cheri_machine_prefix}/lib/libcheri_machine.so.1"
    IMPORTED_SONAME "libcheri_machine.so.1"
    INTERFACE_INCLUDE_DIRECTORIES "${_cheri_machine_prefix}/include")
endif()
unset(_cheri_machine_prefix)
