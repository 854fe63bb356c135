# find_package(leafgraph) gives the target leafgraph::leafgraph, for C and C++.
# Found from where this file stands, so that the folder can be moved.

get_filename_component(_leafgraph_prefix "${CMAKE_CURRENT_LIST_DIR}/../../.." ABSOLUTE)

if(NOT TARGET leafgraph::leafgraph)
  add_library(leafgraph::leafgraph STATIC IMPORTED)
  set_target_properties(leafgraph::leafgraph PROPERTIES
    IMPORTED_LOCATION "${_leafgraph_prefix}/lib/libleafgraph.a"
    INTERFACE_INCLUDE_DIRECTORIES "${_leafgraph_prefix}/include")
endif()

unset(_leafgraph_prefix)
