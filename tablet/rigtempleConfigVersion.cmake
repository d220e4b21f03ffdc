# For CMake's find_package(rigtemple VERSION): good for an app that asks for the same first number
# and for a second that is not higher.
set(PACKAGE_VERSION "@VERSION@")
string(REGEX REPLACE "\\..*" "" rigtemple_first "${PACKAGE_VERSION}")
if(PACKAGE_FIND_VERSION_MAJOR EQUAL rigtemple_first
   AND NOT PACKAGE_FIND_VERSION VERSION_GREATER PACKAGE_VERSION)
  set(PACKAGE_VERSION_COMPATIBLE TRUE)
  if(PACKAGE_FIND_VERSION VERSION_EQUAL PACKAGE_VERSION)
    set(PACKAGE_VERSION_EXACT TRUE)
  endif()
endif()
