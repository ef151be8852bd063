/* The functions of include/solid.h as symbols, for languages that cannot include it: solid_fuse_in, solid_cells_in, solid_offset_in,
 * solid_hollow_in, solid_mesh_in, solid_room_words, solid_reason and solid_version. tests/native-lib puts them into the archive. */
#define SOLID_CALL
#include "../include/solid.h"
