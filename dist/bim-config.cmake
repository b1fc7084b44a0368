# find_package(bim): bim::bim is libbim.so and bim::static libbim.a, as they lie beside this file.
get_filename_component(bim_root "${CMAKE_CURRENT_LIST_DIR}/../../.." ABSOLUTE)
if(NOT TARGET bim::bim)
  add_library(bim::bim SHARED IMPORTED)
  set_target_properties(bim::bim PROPERTIES IMPORTED_LOCATION "${bim_root}/lib/libbim.so" INTERFACE_INCLUDE_DIRECTORIES "${bim_root}/include")
  add_library(bim::static STATIC IMPORTED)
  set_target_properties(bim::static PROPERTIES IMPORTED_LOCATION "${bim_root}/lib/libbim.a" INTERFACE_INCLUDE_DIRECTORIES "${bim_root}/include")
endif()
