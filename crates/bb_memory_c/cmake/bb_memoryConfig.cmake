# find_package(bb_memory) defines the targets bb_memory::bb_memory, the shared library, and
# bb_memory::static, the archive. The folders are found relative to this file, which is in
# lib/cmake/bb_memory, so that an installation can be moved.
get_filename_component(_bb_memory_lib "${CMAKE_CURRENT_LIST_DIR}/../.." ABSOLUTE)
set(_bb_memory_include "@INCLUDE@")
if(NOT IS_ABSOLUTE "${_bb_memory_include}")
  get_filename_component(_bb_memory_include "${_bb_memory_lib}/${_bb_memory_include}" ABSOLUTE)
endif()
if(NOT TARGET bb_memory::bb_memory)
  add_library(bb_memory::bb_memory SHARED IMPORTED)
  set_target_properties(bb_memory::bb_memory PROPERTIES
    IMPORTED_LOCATION "${_bb_memory_lib}/@SHARED@" IMPORTED_SONAME "@SONAME@"
    INTERFACE_INCLUDE_DIRECTORIES "${_bb_memory_include}")
  add_library(bb_memory::static STATIC IMPORTED)
  set_target_properties(bb_memory::static PROPERTIES
    IMPORTED_LOCATION "${_bb_memory_lib}/libbb_memory.a" INTERFACE_INCLUDE_DIRECTORIES "${_bb_memory_include}")
endif()
unset(_bb_memory_lib)
unset(_bb_memory_include)
