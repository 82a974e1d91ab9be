# find_package(daidalus): the targets daidalus::daidalus, the shared library, and daidalus::static, both archives.
get_filename_component(daidalus_prefix "${CMAKE_CURRENT_LIST_DIR}/@UP_FROM_CMAKE@" ABSOLUTE)
set(daidalus_libraries "${daidalus_prefix}/@LIB@")

if(NOT TARGET daidalus::daidalus)
  add_library(daidalus::daidalus SHARED IMPORTED)
  set_target_properties(daidalus::daidalus PROPERTIES
    IMPORTED_LOCATION "${daidalus_libraries}/libdaidalus.so.@VERSION@"
    IMPORTED_SONAME "libdaidalus.so.@MAJOR@"
    INTERFACE_INCLUDE_DIRECTORIES "${daidalus_prefix}/include")
  add_library(daidalus::static INTERFACE IMPORTED)
  set_target_properties(daidalus::static PROPERTIES
    INTERFACE_INCLUDE_DIRECTORIES "${daidalus_prefix}/include"
    INTERFACE_LINK_LIBRARIES "${daidalus_libraries}/libdaa_c.a;${daidalus_libraries}/libdaa_toml.a")
endif()
