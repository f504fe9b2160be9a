# find_package(digits), and then target_link_libraries(program digits::digits) or digits::static.
get_filename_component(digits_prefix "${CMAKE_CURRENT_LIST_DIR}/../../.." ABSOLUTE)
if(NOT TARGET digits::digits)
  add_library(digits::digits SHARED IMPORTED)
  add_library(digits::static STATIC IMPORTED)
  set_target_properties(digits::digits PROPERTIES IMPORTED_LOCATION "${digits_prefix}/lib/libdigits.so")
  set_target_properties(digits::static PROPERTIES IMPORTED_LOCATION "${digits_prefix}/lib/libdigits.a")
  set_target_properties(digits::digits digits::static PROPERTIES
    INTERFACE_INCLUDE_DIRECTORIES "${digits_prefix}/include")
endif()
