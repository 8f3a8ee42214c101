include(CMakeFindDependencyMacro)
find_dependency(tags 0.3)
include("${CMAKE_CURRENT_LIST_DIR}/queueTargets.cmake")
