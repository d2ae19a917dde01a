/* The structs as the library takes them: numbers beside one another, nothing between them but a byte in a cue record. An
 * array of -1 members does not compile. */
#define HOLDS(name, claim) extern char name[(claim) ? 1 : -1]

HOLDS(link_size, sizeof(muruapy_link) == 8);
HOLDS(link_higher, offsetof(muruapy_link, higher) == 2);
HOLDS(link_near, offsetof(muruapy_link, near) == 4);
HOLDS(link_far, offsetof(muruapy_link, far) == 6);
HOLDS(plan_size, sizeof(muruapy_plan) == 4804);
HOLDS(plan_links, offsetof(muruapy_plan, links) == 2);
HOLDS(plan_link, offsetof(muruapy_plan, link) == 4);
HOLDS(module_size, sizeof(muruapy_module) == 2 * MURUAPY_WIDTH);
HOLDS(module_level, offsetof(muruapy_module, level) == 2);
HOLDS(module_identity, offsetof(muruapy_module, identity) == 4);
HOLDS(module_best_weight, offsetof(muruapy_module, best_weight) == 6);
HOLDS(module_best_edge, offsetof(muruapy_module, best_edge) == 8);
HOLDS(module_test_edge, offsetof(muruapy_module, test_edge) == 10);
HOLDS(module_in_branch, offsetof(muruapy_module, in_branch) == 12);
HOLDS(module_find_count, offsetof(muruapy_module, find_count) == 14);
HOLDS(module_halted, offsetof(muruapy_module, halted) == 16);
HOLDS(module_waking, offsetof(muruapy_module, waking) == 2 * MURUAPY_WIDTH - 2); /* the last one */
HOLDS(field_size, sizeof(muruapy_field) == 4804 + 192 * 2 * MURUAPY_WIDTH + 600 * 2 + 4);
HOLDS(field_modules, offsetof(muruapy_field, modules) == 4804);
HOLDS(field_marks, offsetof(muruapy_field, marks) == 4804 + 192 * 2 * MURUAPY_WIDTH);
HOLDS(field_sent, offsetof(muruapy_field, sent) == 4804 + 192 * 2 * MURUAPY_WIDTH + 600 * 2);
HOLDS(path_found_size, sizeof(muruapy_path_found) == 12);
HOLDS(path_found_way, offsetof(muruapy_path_found, way) == 4);
HOLDS(path_found_length, offsetof(muruapy_path_found, length) == 8);
HOLDS(path_found_worst, offsetof(muruapy_path_found, worst) == 10);
HOLDS(previewed_size, sizeof(muruapy_previewed) == 8);
HOLDS(previewed_count, offsetof(muruapy_previewed, count) == 4);
HOLDS(cue_size, sizeof(muruapy_cue) == 8);
HOLDS(cue_heard, offsetof(muruapy_cue, heard) == 0);
HOLDS(cue_cue, offsetof(muruapy_cue, cue) == 2);
HOLDS(cue_link, offsetof(muruapy_cue, link) == 4);
HOLDS(cue_hops, offsetof(muruapy_cue, hops) == 6);
HOLDS(delivery_size, sizeof(muruapy_delivery) == 8);
HOLDS(delivery_heard, offsetof(muruapy_delivery, heard) == 4);
HOLDS(found_size, sizeof(muruapy_found) == 24);
HOLDS(found_at, offsetof(muruapy_found, at) == 8);
HOLDS(found_bytes, offsetof(muruapy_found, size) == 16);
HOLDS(version, MURUAPY_VERSION_MAJOR == 4); /* since a path tells whether there is a way */
HOLDS(minor_version, MURUAPY_VERSION_MINOR == 0);
HOLDS(plan_bytes, MURUAPY_PLAN_BYTES == 7 + 8 * MURUAPY_LINKS);
HOLDS(ceiling, MURUAPY_WORDS == 5 * MURUAPY_MODULES * 7 + 2 * MURUAPY_LINKS);
HOLDS(steps, MURUAPY_STEPS == 65535 / 3);
HOLDS(sends, MURUAPY_SENDS == MURUAPY_MODULES - 1);
HOLDS(path_links, MURUAPY_PATH_LINKS == MURUAPY_MODULES - 1);
HOLDS(record_bytes, MURUAPY_RECORD_BYTES == 6 + MURUAPY_NAME + MURUAPY_PLAN_BYTES + 2 + 2 * MURUAPY_WIDTH * MURUAPY_MODULES +
                        4 * MURUAPY_LINKS + 8 * MURUAPY_WORDS);
