# find_package(maruvoog) gives the target maruvoog::maruvoog: the static library and the folder of mv.h and mv.hpp.
if(NOT TARGET maruvoog::maruvoog)
  get_filename_component(maruvoog_prefix "${CMAKE_CURRENT_LIST_DIR}/../../.." ABSOLUTE)
  add_library(maruvoog::maruvoog STATIC IMPORTED)
  set_target_properties(maruvoog::maruvoog PROPERTIES
    IMPORTED_LOCATION "${maruvoog_prefix}/lib/libmaruvoog.a"
    INTERFACE_INCLUDE_DIRECTORIES "${maruvoog_prefix}/include")
  unset(maruvoog_prefix)
endif()
