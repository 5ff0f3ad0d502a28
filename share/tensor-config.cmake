# find_package(tensor): tensor::tensor is the shared library, and tensor::static the archive.
get_filename_component(tensor_folder "${CMAKE_CURRENT_LIST_DIR}" REALPATH)
# Debian's libraries lie a folder deeper.
foreach(tensor_it IN ITEMS "../../.." "../../../..")
  if(EXISTS "${tensor_folder}/${tensor_it}/include/tensor.h")
    get_filename_component(tensor_include "${tensor_folder}/${tensor_it}/include" ABSOLUTE)
  endif()
endforeach()
get_filename_component(tensor_folder "${tensor_folder}/../.." ABSOLUTE)
if(NOT TARGET tensor::tensor)
  add_library(tensor::tensor SHARED IMPORTED)
  add_library(tensor::static STATIC IMPORTED)
  set_target_properties(tensor::tensor PROPERTIES IMPORTED_LOCATION "${tensor_folder}/libtensor.so.1")
  set_target_properties(tensor::static PROPERTIES IMPORTED_LOCATION "${tensor_folder}/libtensor.a")
  set_target_properties(tensor::tensor tensor::static PROPERTIES
    INTERFACE_INCLUDE_DIRECTORIES "${tensor_include}")
endif()
