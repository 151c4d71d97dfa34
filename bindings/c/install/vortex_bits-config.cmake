# vortex_bits::vortex_bits is the static library that selects the processor level at run time, and
# vortex_bits::shared is the shared one. vortex_bits::x86-64-v2 and vortex_bits::x86-64-v3 are
# static libraries of one level.
# The folder may be found by a link, such as /lib to /usr/lib.
get_filename_component(_vortex_bits_prefix "${CMAKE_CURRENT_LIST_DIR}" REALPATH)
get_filename_component(_vortex_bits_prefix "${_vortex_bits_prefix}/../../.." ABSOLUTE)

function(_vortex_bits_library target kind file)
  if(NOT TARGET "vortex_bits::${target}")
    add_library("vortex_bits::${target}" ${kind} IMPORTED)
    set_target_properties("vortex_bits::${target}" PROPERTIES
      IMPORTED_LOCATION "${_vortex_bits_prefix}/lib/${file}"
      INTERFACE_INCLUDE_DIRECTORIES "${_vortex_bits_prefix}/include")
  endif()
endfunction()

_vortex_bits_library(vortex_bits STATIC libvortex_bits.a)
_vortex_bits_library(shared SHARED libvortex_bits.so)
_vortex_bits_library(x86-64-v2 STATIC libvortex_bits_x86-64-v2.a)
_vortex_bits_library(x86-64-v3 STATIC libvortex_bits_x86-64-v3.a)
unset(_vortex_bits_prefix)

# A component is a target; one that isn't there is refused if it is required.
foreach(_vortex_bits_part IN LISTS vortex_bits_FIND_COMPONENTS)
  set(vortex_bits_${_vortex_bits_part}_FOUND FALSE)
  if(TARGET "vortex_bits::${_vortex_bits_part}")
    set(vortex_bits_${_vortex_bits_part}_FOUND TRUE)
  elseif(vortex_bits_FIND_REQUIRED_${_vortex_bits_part})
    set(vortex_bits_FOUND FALSE)
    set(vortex_bits_NOT_FOUND_MESSAGE "vortex_bits has no component ${_vortex_bits_part}")
  endif()
endforeach()
