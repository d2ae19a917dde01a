// The header in C++11, before anything else and twice. Every function is named, so a name that is not C's does not link.
#include "muruapy.h"
#include "muruapy.h"

#include "layout.h"

#include <cstdio>
#include <memory>
#include <string>
#include <vector>

template <typename F> static bool there(F *function)
{
    return function != nullptr;
}

static bool all_there()
{
    return there(&muruapy_plan_check) && there(&muruapy_plan_read) && there(&muruapy_plan_value_check) &&
           there(&muruapy_plan_write) && there(&muruapy_link_cost) && there(&muruapy_ceiling) && there(&muruapy_tree) &&
           there(&muruapy_header) && there(&muruapy_header_kind) && there(&muruapy_header_level) &&
           there(&muruapy_header_find) && there(&muruapy_message_listed) && there(&muruapy_frame_check) &&
           there(&muruapy_frame_read) && there(&muruapy_frame_write) && there(&muruapy_word_header) &&
           there(&muruapy_word_carried) && there(&muruapy_word_link) && there(&muruapy_word_handed) &&
           there(&muruapy_waiting) && there(&muruapy_setup_parts) && there(&muruapy_field_check_parts) &&
           there(&muruapy_step_parts) && there(&muruapy_run_parts) && there(&muruapy_rounds_parts) &&
           there(&muruapy_job_parts) && there(&muruapy_report_parts) && there(&muruapy_schedule_check) &&
           there(&muruapy_schedule_steps) && there(&muruapy_schedule_read) && there(&muruapy_setup) &&
           there(&muruapy_field_check) && there(&muruapy_step) && there(&muruapy_run) && there(&muruapy_rounds) &&
           there(&muruapy_job) && there(&muruapy_report) && there(&muruapy_preview_parts) &&
           there(&muruapy_preview) && there(&muruapy_cue_start_value) && there(&muruapy_cue_deliver_value) &&
           there(&muruapy_cue_start) && there(&muruapy_cue_deliver) && there(&muruapy_save_parts) &&
           there(&muruapy_restore_parts) && there(&muruapy_save) && there(&muruapy_find) && there(&muruapy_shown) &&
           there(&muruapy_restore) && there(&muruapy_path) && there(&muruapy_near) && there(&muruapy_refusal_text);
}

int main()
{
    const std::vector<uint8_t> bytes = {1, 0, 12, 0, 2, 0, 1, 0, 0, 0, 1, 0, 3, 0, 4};
    std::unique_ptr<muruapy_plan> plan(new muruapy_plan);
    std::unique_ptr<muruapy_field> field(new muruapy_field);
    std::vector<uint8_t> text(MURUAPY_REPORT_BYTES);
    uint16_t rounds = 0;
    if (!all_there() || muruapy_plan_read(bytes.data(), bytes.size(), plan.get()) != MURUAPY_TAKEN)
        return 1;
    std::vector<uint16_t> path(MURUAPY_PATH_LINKS);
    std::vector<uint8_t> near(plan->modules);
    const muruapy_path_found way = muruapy_path(plan.get(), 1, 0, path.data(), path.size());
    if (way.refusal != MURUAPY_TAKEN || way.way != 1 || way.length != 1 || way.worst != 0 || path[0] != 0)
        return 1;
    if (muruapy_near(plan.get(), 1, 0, near.data(), near.size()) != MURUAPY_TAKEN || near[0] != 0 || near[1] != 1)
        return 1;
    std::vector<uint64_t> words(muruapy_ceiling(plan->modules, plan->links));
    if (muruapy_job(plan.get(), field.get(), words.data(), words.size(), &rounds) != MURUAPY_TAKEN || rounds != 4)
        return 1;
    const std::string said(text.begin(), text.begin() + static_cast<std::ptrdiff_t>(muruapy_report(
                                                            field.get(), rounds, text.data(), text.size())));
    if (said != "modules 2\nlinks 1\nbranch 0 1 4\ntotal 4\ncore 0 1\nmessages 6 of 12\nrounds 4\n")
        return 1;
    if (field->modules[0].waking != MURUAPY_NONE || field->modules[1].waking != 0)
        return 1;
    std::vector<muruapy_cue> cues(plan->modules);
    if (muruapy_cue_start(field.get(), words.data(), words.size(), cues.data(), cues.size(), 1, 7) != MURUAPY_TAKEN)
        return 1;
    const muruapy_delivery delivery =
        muruapy_cue_deliver(field.get(), words.data(), words.size(), cues.data(), cues.size(), 1);
    if (delivery.refusal != MURUAPY_TAKEN || delivery.heard != 1 || cues[0].cue != 7 || cues[0].hops != 1)
        return 1;
    std::vector<uint64_t> buffer(MURUAPY_SENDS);
    if (muruapy_setup(plan.get(), field.get(), words.data(), words.size()) != MURUAPY_TAKEN)
        return 1;
    const muruapy_previewed previewed = muruapy_preview(field.get(), words.data(), words.size(), MURUAPY_WAKE, 0,
                                                        buffer.data(), buffer.size());
    if (previewed.refusal != MURUAPY_TAKEN || previewed.count != 1 || buffer[0] != UINT64_C(0x20000ffff01))
        return 1;
    const std::string name = "go";
    const uint8_t *const letters = reinterpret_cast<const uint8_t *>(name.data());
    std::vector<uint8_t> store(69);
    if (muruapy_save(field.get(), words.data(), words.size(), letters, name.size(), store.data(), store.size()) !=
        MURUAPY_TAKEN)
        return 1;
    const muruapy_found found = muruapy_find(store.data(), store.size(), letters, name.size());
    if (found.refusal != MURUAPY_TAKEN || found.at != 0 || found.size != 69 ||
        muruapy_shown(store.data(), found) != store.data())
        return 1;
    if (muruapy_restore(store.data(), store.size(), letters, name.size(), field.get(), words.data(), words.size()) !=
        MURUAPY_TAKEN)
        return 1;
    return 0;
}
