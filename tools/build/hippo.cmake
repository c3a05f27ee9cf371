# hippo_repaired(NAME SOURCES a.c b.c [PARTS a.c] [INPUTS file] [BASELINE file] [FLAGS words] [CLANG words])
# makes an object library NAME from the text that hippo repaired. The build fails on reports that the baseline does not
# list. SOURCES are the C files of the program with its driver, PARTS those whose functions go into the library. It is made
# again after a change of a header, with CMake 3.20 or later.
find_program(HIPPO_C hippo-c REQUIRED)

function(hippo_repaired name)
  cmake_parse_arguments(HIPPO "" "INPUTS;BASELINE" "SOURCES;PARTS;FLAGS;CLANG" ${ARGN})
  set(words ${HIPPO_SOURCES} ${HIPPO_FLAGS})
  set(check_words ${words})
  list(REMOVE_ITEM check_words --clflush)
  set(more)
  if(HIPPO_INPUTS)
    list(APPEND more --inputs ${HIPPO_INPUTS})
  endif()
  set(baseline)
  if(HIPPO_BASELINE)
    set(baseline --baseline ${HIPPO_BASELINE})
  endif()
  set(parts)
  foreach(part ${HIPPO_PARTS})
    list(APPEND parts --for ${part})
  endforeach()
  set(clang)
  if(HIPPO_CLANG)
    set(clang -- ${HIPPO_CLANG})
  endif()
  set(object ${CMAKE_CURRENT_BINARY_DIR}/${name}.o)
  cmake_policy(PUSH)
  if(POLICY CMP0116)
    cmake_policy(SET CMP0116 NEW) # the file has whole paths, which need no other ones
  endif()
  add_custom_command(
    OUTPUT ${object}
    COMMAND ${HIPPO_C} check ${check_words} ${more} ${baseline} ${clang}
    COMMAND ${HIPPO_C} repair ${words} ${more} ${parts} -o ${object} --depfile ${object}.d ${clang}
    WORKING_DIRECTORY ${CMAKE_CURRENT_SOURCE_DIR}
    DEPENDS ${HIPPO_SOURCES} ${HIPPO_INPUTS} ${HIPPO_BASELINE}
    DEPFILE ${object}.d
    VERBATIM)
  cmake_policy(POP)
  set_source_files_properties(${object} PROPERTIES EXTERNAL_OBJECT TRUE GENERATED TRUE)
  add_custom_target(${name}_repaired DEPENDS ${object})
  add_library(${name} INTERFACE)
  add_dependencies(${name} ${name}_repaired)
  target_link_libraries(${name} INTERFACE ${object})
endfunction()
