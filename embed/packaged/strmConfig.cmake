# The target strm::strm: the archive and its headers, wherever this package lies.
if(NOT CMAKE_SYSTEM_NAME STREQUAL "Linux" OR NOT CMAKE_SYSTEM_PROCESSOR MATCHES "^(@PROCESSORS@)$"
    OR NOT CMAKE_SIZEOF_VOID_P EQUAL 8)
  set(strm_FOUND FALSE)
  set(strm_NOT_FOUND_MESSAGE "this archive of strm is for @PLACE@")
  return()
endif()
get_filename_component(strm_PREFIX "${CMAKE_CURRENT_LIST_DIR}/../../.." ABSOLUTE)
if(NOT TARGET strm::strm)
  add_library(strm::strm STATIC IMPORTED)
  set_target_properties(strm::strm PROPERTIES
    IMPORTED_LOCATION "${strm_PREFIX}/lib/libstrm.a"
    IMPORTED_LINK_INTERFACE_LANGUAGES C
    INTERFACE_INCLUDE_DIRECTORIES "${strm_PREFIX}/include")
endif()
