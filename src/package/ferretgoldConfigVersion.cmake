# A version fits if it has the asked one's major number and, while that is 0, its minor number, and is
# as new.
set(PACKAGE_VERSION "@VERSION@")
string(REGEX MATCH "^(0\\.)?[0-9]+" _ferretgold_asked "${PACKAGE_FIND_VERSION}")
if(_ferretgold_asked STREQUAL "@ABI@" AND NOT PACKAGE_FIND_VERSION VERSION_GREATER PACKAGE_VERSION)
  set(PACKAGE_VERSION_COMPATIBLE TRUE)
endif()
if(PACKAGE_FIND_VERSION VERSION_EQUAL PACKAGE_VERSION)
  set(PACKAGE_VERSION_EXACT TRUE)
endif()
