# For CMake's find_package(rigtemple): the target rigtemple::rigtemple, of the folder that this file
# lies in. The archive is the one for the processor that is built for, x86_64 or aarch64, which
# CMake and Android's toolchain file call so.
set(rigtemple_archive "${CMAKE_CURRENT_LIST_DIR}/${CMAKE_SYSTEM_PROCESSOR}/librigtemple.a")
if(NOT EXISTS "${rigtemple_archive}")
  set(rigtemple_FOUND FALSE)
  set(rigtemple_NOT_FOUND_MESSAGE
      "rigtemple is for x86_64 and aarch64, and the processor is '${CMAKE_SYSTEM_PROCESSOR}'")
  return()
endif()
if(NOT TARGET rigtemple::rigtemple)
  add_library(rigtemple::rigtemple STATIC IMPORTED)
  set_target_properties(rigtemple::rigtemple PROPERTIES
    IMPORTED_LOCATION "${rigtemple_archive}"
    INTERFACE_INCLUDE_DIRECTORIES "${CMAKE_CURRENT_LIST_DIR}")
endif()
