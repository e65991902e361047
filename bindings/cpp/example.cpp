// Drives a simulated chip through maulgreen.hpp. The C example says what a driver has to do; this one shows the types.
#include "maulgreen.hpp"

#include <cstdlib>
#include <iostream>
#include <map>
#include <type_traits>

static_assert(!std::is_copy_constructible<maulgreen::die>::value && std::is_nothrow_move_constructible<maulgreen::die>::value, "a die moves");
static_assert(!std::is_copy_constructible<maulgreen::slot>::value, "a slot isn't copied");

static void check(bool holds, const char *what) {
    if (!holds) {
        std::cout << "wrong: " << what << "\n";
        std::exit(1);
    }
}

using chip = std::map<std::pair<uint32_t, uint32_t>, maulgreen::name>;

static maulgreen::name drive(chip &cells, const maulgreen::call &call) {
    switch (call.kind) {
    case MG_CALL_READ: return cells.at({call.block, call.page});
    case MG_CALL_PROGRAM: cells[{call.block, call.page}] = call.name; break;
    case MG_CALL_TRIM: break; // a driver that keeps a record of trims writes it here
    case MG_CALL_ERASE:
        if (call.last) cells.erase(cells.lower_bound({call.block, 0}), cells.lower_bound({call.block + 1, 0}));
    }
    return {};
}

template <class F> static uint32_t refused(F &&f) {
    try {
        f();
        return MG_OK;
    } catch (const maulgreen::refusal &refusal) {
        std::cout << "refused: " << refusal.what() << " " << refusal.why.first << " " << refusal.why.second << "\n";
        return refusal.code;
    }
}

int main() {
    const maulgreen::plan plan{8, 4, 3, 16, 2, 0};
    check(refused([&] { maulgreen::die(plan, {}); }) == MG_BAD_PLAN, "a plan without tasks");
    check(refused([&] { maulgreen::bound(plan, {}); }) == MG_BAD_PLAN, "its bound isn't met");
    maulgreen::die first(plan, {{4, 0, 0, 0, 0}});
    maulgreen::die die = std::move(first);
    // Careful programs reserve: then nothing is refused for memory, nor waits for it.
    die.reserve_jobs(400, 400);
    die.reserve(4000);
    std::cout << maulgreen::memory(plan, {{4, 0, 0, 0, 0}}, 4000, 400, 400).reserved << " bytes at most\n";
    chip cells;
    uint32_t acts[7] = {}, seed = 1;
    for (uint32_t round = 0; round < 200; round++) {
        const uint32_t now = die.now(), page = (seed = seed * 1664525u + 1013904223u) >> 28;
        maulgreen::name what{};
        what.bytes[0] = static_cast<uint8_t>(round);
        die.collect(1, 0, now, now + 40);
        const uint32_t job = die.submit(1, 0, now, now + 8, {maulgreen::write(page, what), maulgreen::read(page)});
        for (;;) {
            maulgreen::slot slot = die.begin(9);
            const maulgreen::reply reply = slot.end(true, drive(cells, slot.call()));
            acts[reply.act]++;
            if (reply.act == MG_IDLE) break;
        }
        check(die.outcome(job).read_names == std::vector<maulgreen::name>{what}, "a read gives what was written last");
    }
    std::cout << acts[2] << " writes, " << acts[1] << " reads, " << acts[5] << " copies, " << acts[6] << " erase slots\n";
    const std::vector<maulgreen::entry> log = die.log(0, 1000000);
    check(log.size() == die.entries() && log[0].what == MG_COLLECTED && log[1].what == MG_SUBMITTED && log[1].caller == 1, "the log");
    check(log[2].caller == 9 && log[4].waived_ones.size() == 1 && log[4].waived_ones[0].job == 0 && die.caller(1) == 1, "and its callers");
    check(die.log(2, 1).size() == 1 && die.log(UINT32_MAX, 9).empty(), "a part of it");
    for (uint32_t page = 0; page < 16; page++)
        check(!die.place(page) || cells.count({die.place(page)->block, die.place(page)->page}), "a page lies in a programmed cell");
    check(!die.place(16), "one that isn't there lies nowhere");
    check(!die.overdue(), "nothing waits");
    check(maulgreen::check(die.rows(), die.certificate()) == MG_OK, "the certificate holds");
    check(refused([&] { die.submit(1, 0, die.now(), die.now() + 1, {maulgreen::trim(0), maulgreen::read(16)}); }) == MG_BAD_PAGE, "page 16");
    die.renew();
    check(die.now() == 0, "a new log");
    die.renew_giving_back();
    maulgreen::checkpoint left = die.checkpoint();
    die = maulgreen::die(plan, {{4, 0, 0, 0, 0}}, left); // the chip keeps its pages
    left.places.pop_back();
    check(refused([&] { maulgreen::die(plan, {{4, 0, 0, 0, 0}}, left); }) == MG_OTHER_SHAPE, "a page less than the plan has");
    die.submit(1, 0, 0, 2, {maulgreen::read(5)});
    check(left.part.serial == die.serial() && left.part.aside == 8, "the part goes on");
    die.checkpoint_void();
    {
        maulgreen::slot moved_from = die.begin(9);
        maulgreen::slot destroyed = std::move(moved_from);
        check(refused([&] { moved_from.end(true); }) == MG_NOT_BEGUN, "a slot that was moved from isn't ended");
    }
    check(refused([&] { die.begin(9); }) == MG_DIE_STOPPED, "a slot that is destroyed stops the die");
    check(cells.count({die.place(5)->block, die.place(5)->page}) == 1, "and its pages are found");
    // Page 5 lies in a part's last block, which the die has under the number of the one aside: block 0.
    maulgreen::mount unmoved(plan, {{4, 0, 0, 0, 0}});
    maulgreen::mount mount = std::move(unmoved);
    check(refused([&] { mount.done(); }) == MG_WRONG_STEP, "blocks come first");
    uint32_t slots = 0;
    for (maulgreen::step step = mount.step(); step.kind != MG_STEP_END; step = mount.step())
        if (step.kind == MG_STEP_TELL) mount.tell(step.block == 8 ? std::vector<maulgreen::label>{{41, 5, 6}} : std::vector<maulgreen::label>{});
        else {
            check(step.kind == MG_STEP_ERASE && mount.place(5)->block == 8 && mount.calls_left() > 0, "nothing is to be copied");
            mount.done();
            slots++;
        }
    maulgreen::name fifth{};
    fifth.bytes[3] = 171;
    maulgreen::die mounted = mount.end({{}, {}, {}, {}, {}, fifth});
    check(mounted.checkpoint().blocks[0].erases == 6 && mounted.checkpoint().blocks[4].erases == 7, "labels tell of erases");
    check(slots == 9 && mounted.serial() == 42 && mounted.part_block(0) == 8 && mounted.place(5)->block == 0, "it goes on there");
    mounted.submit(1, 0, 0, 1, {maulgreen::read(5)});
    maulgreen::slot read_back = mounted.begin(9);
    check(read_back.call().name == fifth && read_back.end(true, fifth).finished, "with the page's name");
    check(refused([&] { mount.step(); }) == MG_WRONG_STEP, "a mount makes one die");
    // Eleven blocks, of which block 1 is bad and block 10 is spare: it has the number 0 once page 0 of block 0 was copied.
    maulgreen::spares unmoved_table(plan, 11, {1});
    maulgreen::spares table = std::move(unmoved_table);
    uint32_t erased = 0;
    for (; table.next().kind == MG_MOVE_ERASE; table.done(MG_MOVE_DONE)) erased++;
    check(erased == 10 && table.left() == 1 && table.block(1) == 2 && table.use(10).first == MG_USE_SPARE, "numbers, and a spare block");
    table.program_failed(0, 1);
    check(table.next().kind == MG_MOVE_COPY && table.next().block == 10 && table.next().from == 0, "what it held is copied");
    table.done(MG_MOVE_DONE);
    check(table.next().kind == MG_MOVE_PROGRAM && table.next().page == 1 && table.block(0) == 0, "and then programmed");
    table.done(MG_MOVE_DONE);
    check(table.block(0) == 10 && refused([&] { table.erase_failed(3); }) == MG_NO_SPARE && refused([&] { table.next(); }) == MG_NO_SPARE, "no spare block is left");
    maulgreen::spares powered = maulgreen::spares::power_up(plan, 9, {});
    for (uint32_t b = 0; b < 9; b++) powered.tell({{b + 1, 0, 0}});
    check(powered.next().kind == MG_MOVE_NONE && powered.block(8) == 8 && refused([&] { powered.block(9); }) == MG_NO_BLOCK, "each block has a number");
    // A die that keeps its plan is written down and goes on, and a mount ends in one.
    const maulgreen::plan small{8, 4, 3, 12, 2, 0};
    const std::vector<maulgreen::task> cap{{6, 0, 0, 0, 0}};
    const std::vector<maulgreen::terms> terms{{20, 10, 10, 2, 1, 20, 20}};
    maulgreen::planned kept(small, cap, terms, 100);
    kept.ask(1, 0, {maulgreen::write(5, fifth)});
    check(refused([&] { kept.checkpoint(); }) == MG_NOT_QUIET, "work waits");
    for (int i = 0; i < 2; i++) { // the second slot waives the collection
        kept.begin(9);
        kept.end(true);
    }
    maulgreen::checkpoint at = kept.checkpoint();
    check(kept.serial() == 2 && kept.part_block(3) == 3 && at.names[5] == fifth && at.places[5].block == 0, "what stands");
    kept = maulgreen::planned(small, cap, terms, 60, at); // the chip keeps its pages
    check(kept.life().slots == 60 && kept.serial() == 2 && kept.checkpoint().balances == at.balances, "it goes on");
    check(refused([&] { kept.begin(9); }) == MG_CHECKPOINT_STANDS, "the checkpoint stands");
    kept.checkpoint_void();
    kept.begin(9);
    kept.end(true);
    at.balances[0] -= 4, at.spare += 4;
    try {
        maulgreen::planned(small, cap, terms, 60, at);
        check(false, "a task with too few pages");
    } catch (const maulgreen::refusal &why) {
        check(why.code == MG_NOT_STOCKED && why.why.second == 2 && why.third == 3, "it has 2 pages and needs 3");
    }
    maulgreen::mount again(small, cap);
    check(refused([&] { again.end_planned(terms, 100, {}); }) == MG_WRONG_STEP, "blocks come first");
    for (maulgreen::step step = again.step(); step.kind != MG_STEP_END; step = again.step())
        if (step.kind == MG_STEP_TELL) again.tell(step.block == 8 ? std::vector<maulgreen::label>{{41, 5, 6}} : std::vector<maulgreen::label>{});
        else again.done();
    maulgreen::planned begun = again.end_planned(terms, 100, {{}, {}, {}, {}, {}, fifth});
    check(begun.serial() == 42 && begun.part_block(0) == 8 && begun.place(5)->block == 0, "it begins there");
    std::cout << "all as it should be\n";
}
