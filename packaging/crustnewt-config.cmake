# find_package(crustnewt) gives the target crustnewt::crustnewt: link it, and the header is found too.
get_filename_component(_crustnewt_prefix "${CMAKE_CURRENT_LIST_DIR}/../../.." ABSOLUTE)
if(NOT TARGET crustnewt::crustnewt)
  add_library(crustnewt::crustnewt STATIC IMPORTED)
  set_target_properties(crustnewt::crustnewt PROPERTIES
    IMPORTED_LOCATION "${_crustnewt_prefix}/lib/libcrustnewt.a"
    IMPORTED_LINK_INTERFACE_LANGUAGES C
    INTERFACE_INCLUDE_DIRECTORIES "${_crustnewt_prefix}/include")
endif()
unset(_crustnewt_prefix)
