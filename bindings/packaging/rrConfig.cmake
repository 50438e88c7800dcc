# The library rr: `find_package(rr 0.2)` imports
#   rr::rr          the shared library, with the headers for C and C++
#   rr::rr_static   the archive
set(rr_prefix "${CMAKE_CURRENT_LIST_DIR}/../../..")
get_filename_component(rr_prefix "${rr_prefix}" ABSOLUTE)

foreach(rr_file lib/librr.so lib/librr.a include/rr.h include/rr.hpp)
  if(NOT EXISTS "${rr_prefix}/${rr_file}")
    set(rr_FOUND FALSE)
    set(rr_NOT_FOUND_MESSAGE "${rr_prefix}/${rr_file} is missing: install rr again")
    return()
  endif()
endforeach()
if(NOT CMAKE_SYSTEM_PROCESSOR MATCHES "^(x86_64|AMD64|amd64)$" OR NOT CMAKE_SYSTEM_NAME STREQUAL "Linux")
  set(rr_FOUND FALSE)
  set(rr_NOT_FOUND_MESSAGE "rr is built for x86_64 and Linux, and this is ${CMAKE_SYSTEM_PROCESSOR} and ${CMAKE_SYSTEM_NAME}")
  return()
endif()

if(NOT TARGET rr::rr)
  include(CMakeFindDependencyMacro)
  find_dependency(Threads)
  add_library(rr::rr SHARED IMPORTED)
  set_target_properties(rr::rr PROPERTIES IMPORTED_LOCATION "${rr_prefix}/lib/librr.so" IMPORTED_SONAME librr.so.0)
  add_library(rr::rr_static STATIC IMPORTED)
  set_target_properties(rr::rr_static PROPERTIES IMPORTED_LOCATION "${rr_prefix}/lib/librr.a")
  set_target_properties(
    rr::rr rr::rr_static
    PROPERTIES INTERFACE_INCLUDE_DIRECTORIES "${rr_prefix}/include"
               INTERFACE_LINK_LIBRARIES Threads::Threads)
endif()
