# For find_package(yurewha). The targets are yurewha::shared and yurewha::static; yurewha::yurewha is the shared one, or the
# static one where BUILD_SHARED_LIBS is set to a false value. All may be moved together. The header is in one of the usual places,
# seen from the library, of which Debian's is one; else where it was installed.
if(NOT CMAKE_SYSTEM_NAME MATCHES "^(Linux|Windows|Darwin)$")
  set(yurewha_NOT_FOUND_MESSAGE
    "There is no library for ${CMAKE_SYSTEM_NAME}: it is for Linux and macOS on x86_64 and aarch64, and for Windows on x86_64; elsewhere a Linux \
container runs it, the JavaScript package runs as it is, and xet-core-structures has the same hashes")
  set(yurewha_FOUND FALSE)
  return()
endif()

get_filename_component(yurewha_libdir "${CMAKE_CURRENT_LIST_DIR}/../.." ABSOLUTE)
set(yurewha_includedir "@includedir@")
foreach(yurewha_folder "${yurewha_libdir}/../../include" "${yurewha_libdir}/../include")
  if(EXISTS "${yurewha_folder}/yurewha.h")
    set(yurewha_includedir "${yurewha_folder}")
  endif()
endforeach()

if(NOT TARGET yurewha::shared)
  add_library(yurewha::shared SHARED IMPORTED)
  set_target_properties(yurewha::shared PROPERTIES INTERFACE_INCLUDE_DIRECTORIES "${yurewha_includedir}")
  if(WIN32)
    set_target_properties(yurewha::shared PROPERTIES
      IMPORTED_IMPLIB "${yurewha_libdir}/libyurewha.dll.a"
      IMPORTED_LOCATION "${yurewha_libdir}/../bin/libyurewha-1.dll")
  elseif(APPLE)
    set_target_properties(yurewha::shared PROPERTIES
      IMPORTED_LOCATION "${yurewha_libdir}/libyurewha.1.dylib"
      IMPORTED_SONAME "@rpath/libyurewha.1.dylib")
  else()
    set_target_properties(yurewha::shared PROPERTIES
      IMPORTED_LOCATION "${yurewha_libdir}/libyurewha.so.1"
      IMPORTED_SONAME libyurewha.so.1)
  endif()

  add_library(yurewha::static STATIC IMPORTED)
  set_target_properties(yurewha::static PROPERTIES
    IMPORTED_LOCATION "${yurewha_libdir}/libyurewha.a"
    INTERFACE_INCLUDE_DIRECTORIES "${yurewha_includedir}")

  add_library(yurewha::yurewha INTERFACE IMPORTED)
  if(DEFINED BUILD_SHARED_LIBS AND NOT BUILD_SHARED_LIBS)
    set_target_properties(yurewha::yurewha PROPERTIES INTERFACE_LINK_LIBRARIES yurewha::static)
  else()
    set_target_properties(yurewha::yurewha PROPERTIES INTERFACE_LINK_LIBRARIES yurewha::shared)
  endif()
endif()
