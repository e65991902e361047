// A die of a proved flash translation layer with deadlines, for C++17: maulgreen.h with types that see to its rules.
//
// A `maulgreen::die` moves and isn't copied, and frees its die. A `maulgreen::slot` is a slot that has begun: it is ended by `end`,
// or, where it is destroyed first, as a fault, which stops the die if the device was to do something. What is refused is thrown as a
// `maulgreen::refusal`. maulgreen.h says what each call does.
#ifndef MAULGREEN_HPP
#define MAULGREEN_HPP
#include "maulgreen.h"
#include "maulgreen_layout.h"

#include <algorithm>
#include <array>
#include <cstdint>
#include <exception>
#include <optional>
#include <stdexcept>
#include <utility>
#include <vector>

inline bool operator==(const mg_name &a, const mg_name &b) { return std::equal(a.bytes, a.bytes + 16, b.bytes); }

namespace maulgreen {

using name = ::mg_name;
using plan = ::mg_plan;
using task = ::mg_task;
using op = ::mg_op;
using call = ::mg_call;
using row = ::mg_row;
using job_head = struct ::mg_job_head;
using worst_job = struct ::mg_worst_job;
using overdue_job = struct ::mg_overdue_job;
using cell = ::mg_cell;
using label = ::mg_label;
using step = ::mg_step;
using terms = ::mg_terms;
using taken = ::mg_taken;
using life = ::mg_life;

// Why a call is refused: its number of maulgreen.h, and the numbers that it has.
class refusal : public std::exception {
public:
    explicit refusal(std::uint32_t code, ::mg_why why = {0, 0}) : code(code), why(why) {
        ::mg_refusal_name(code, name_.data(), name_.size());
    }
    refusal(std::uint32_t code, ::mg_unasked asked) : code(code), why{asked.number, 0}, next(asked.next) {
        ::mg_refusal_name(code, name_.data(), name_.size());
    }
    refusal(std::uint32_t code, ::mg_unresumed un) : code(code), why{un.first, un.second}, third(un.third) {
        ::mg_refusal_name(code, name_.data(), name_.size());
    }
    const char *what() const noexcept override { return name_.data(); }      // "NoTokens"
    const char *text() const noexcept { return ::mg_refusal_text(code); } // what that means, in a line

    const std::uint32_t code;
    const ::mg_why why;
    const std::uint64_t next = 0; // of an ask that comes too soon the first slot with room for it, from the start of the present life
    const std::uint32_t third = 0; // of a task with too few pages to go on with how many it needs

private:
    std::array<char, 17> name_{};
};

inline void must(std::uint32_t code, const ::mg_why &why = {0, 0}) {
    if (code != MG_OK) throw refusal(code, why);
}

inline void must(std::uint32_t code, const ::mg_unasked &why) {
    if (code != MG_OK) throw refusal(code, why);
}

inline void must(std::uint32_t code, const ::mg_unresumed &why) {
    if (code != MG_OK) throw refusal(code, why);
}

inline op read(std::uint32_t page) { return {MG_READ, page, {}}; }
inline op write(std::uint32_t page, const name &what) { return {MG_WRITE, page, what}; }
inline op trim(std::uint32_t page) { return {MG_TRIM, page, {}}; }

// A slot's reply, with the collections that it waived.
struct reply : ::mg_reply {
    std::vector<::mg_waived> waived_ones;
};

// An entry of the log, with the collections that were waived in its slot.
struct entry : ::mg_entry {
    std::vector<::mg_waived> waived_ones;
};

// What became of a job or a collection, with what its reads gave.
struct outcome : ::mg_job_outcome {
    std::vector<name> read_names;
};

// A certificate, with the numbers of its jobs.
struct certificate : ::mg_cert {
    std::vector<std::uint32_t> listed;
};

// What stands on a die at a moment at which all is done or was waived: by logical page its cell and its name, by block its
// counts, by task how many tokens it has, the pages that are spare, and what is known of a part with labels; of one without them
// the next serial is 1, and the last block stands aside.
struct checkpoint {
    std::vector<::mg_cell> places;
    std::vector<name> names;
    std::vector<::mg_block> blocks;
    std::vector<std::uint32_t> balances;
    std::uint32_t spare = 0;
    ::mg_part part{1, UINT32_MAX};
};

// Whether the library has what this header says: see MG_FITS. A die isn't made with another one.
inline bool fits() noexcept { return MG_FITS(::mg_version()); }

// Whether maulgreen::die takes the plan, and, of a plan with times, what it asks for.
inline void bound(const plan &p, const std::vector<task> &tasks) { must(::mg_plan_bound(&p, tasks.data(), tasks.size())); }
inline ::mg_load plan_test(const plan &p, const std::vector<task> &tasks) {
    ::mg_load load{};
    must(::mg_plan_test(&p, tasks.data(), tasks.size(), &load));
    return load;
}

// How many bytes a die asks of the heap at most, as maulgreen.h says.
inline ::mg_bytes memory(const plan &p, const std::vector<task> &tasks, std::uint32_t slots, std::uint32_t jobs, std::uint32_t operations) {
    ::mg_bytes bytes{};
    must(::mg_memory(&p, tasks.data(), tasks.size(), slots, jobs, operations, &bytes));
    return bytes;
}

// MG_OK where the certificate holds for the rows, else its first flaw.
inline std::uint32_t check(const std::vector<row> &rows, const certificate &c) {
    return ::mg_check(rows.data(), rows.size(), &c, c.listed.data(), c.listed.size());
}

class die;
class planned;

// A slot that has begun. The die may be asked meanwhile, and jobs may arrive.
class slot {
public:
    slot(const slot &) = delete;
    slot &operator=(const slot &) = delete;
    slot(slot &&other) noexcept : handle_(std::exchange(other.handle_, nullptr)), call_(other.call_) {}
    slot &operator=(slot &&) = delete;
    ~slot() {
        if (handle_) {
            ::mg_reply said;
            ::mg_waived waived;
            name blank{};
            ::mg_end(handle_, 0, &blank, &said, &waived, 1);
        }
    }

    // What the device is to do.
    const maulgreen::call &call() const { return call_; }

    // Ends it: whether the device did that, and the name of what a read gave. NOT_BEGUN where it was ended or moved from.
    reply end(bool ok, const name &gave = {}) {
        if (!handle_) throw refusal(MG_NOT_BEGUN);
        reply said{};
        std::array<::mg_waived, 16> waived{};
        must(::mg_end(std::exchange(handle_, nullptr), ok ? 1 : 0, &gave, &said, waived.data(), waived.size()));
        said.waived_ones.assign(waived.begin(), waived.begin() + said.waived);
        return said;
    }

private:
    friend class die;
    slot(::mg_die *handle, const maulgreen::call &c) : handle_(handle), call_(c) {}
    ::mg_die *handle_;
    maulgreen::call call_;
};

// One die. As with the containers of the standard library, members that are `const` may run beside each other, and any other
// beside nothing else of the same die, the end of its slot neither: that is for the program to see to. It may be made on one
// thread and used on another. Each call of a die that was moved from is refused with MG_EMPTY_HANDLE, or answers 0.
class die {
public:
    die(const plan &p, const std::vector<task> &tasks) {
        must_fit();
        auto made = new ::mg_die{nullptr};
        std::uint32_t code = ::mg_new(made, &p, tasks.data(), tasks.size());
        if (code != MG_OK) {
            delete made;
            throw refusal(code);
        }
        handle_ = made;
        size_ = p;
        tasks_ = tasks.size();
    }

    // A die that goes on from a checkpoint. The chip has to be as that says. The checkpoint stands: no slot begins that would spend
    // it (MG_CHECKPOINT_STANDS) before checkpoint_void.
    die(const plan &p, const std::vector<task> &tasks, const checkpoint &c) {
        must_fit();
        auto made = new ::mg_die{nullptr};
        ::mg_why why{0, 0};
        std::uint32_t code = ::mg_resume(made, &p, tasks.data(), tasks.size(), c.places.data(), c.places.size(),
                                            c.names.data(), c.names.size(), c.blocks.data(), c.blocks.size(),
                                            c.balances.data(), c.balances.size(), c.spare, &c.part, &why);
        if (code != MG_OK) {
            delete made;
            throw refusal(code, why);
        }
        handle_ = made;
        size_ = p;
        tasks_ = tasks.size();
    }
    die(const die &) = delete;
    die &operator=(const die &) = delete;
    die(die &&other) noexcept : handle_(std::exchange(other.handle_, nullptr)), size_(other.size_), tasks_(other.tasks_) {}
    die &operator=(die &&other) noexcept {
        std::swap(handle_, other.handle_);
        std::swap(size_, other.size_);
        std::swap(tasks_, other.tasks_);
        return *this;
    }
    ~die() {
        if (handle_) {
            ::mg_free(handle_);
            delete handle_;
        }
    }

    std::uint32_t submit(std::uint32_t caller, std::uint32_t task, std::uint32_t release, std::uint32_t due, const std::vector<op> &ops) {
        std::uint32_t number = 0;
        ::mg_why why{0, 0};
        must(::mg_submit(handle_, caller, task, release, due, ops.data(), ops.size(), &number, &why), why);
        return number;
    }

    std::uint32_t collect(std::uint32_t caller, std::uint32_t task, std::uint32_t release, std::uint32_t due) {
        std::uint32_t number = 0;
        ::mg_why why{0, 0};
        must(::mg_collect(handle_, caller, task, release, due, &number, &why), why);
        return number;
    }

    // The slot may not outlive the die, but the die may be moved meanwhile.
    slot begin(std::uint32_t caller) {
        maulgreen::call said{};
        must(::mg_begin(handle_, caller, &said));
        return slot(handle_, said);
    }

    void reserve(std::uint32_t slots) { must(::mg_reserve(handle_, slots)); }
    void reserve_jobs(std::uint32_t jobs, std::uint32_t operations) { must(::mg_reserve_jobs(handle_, jobs, operations)); }

    void renew() {
        ::mg_why why{0, 0};
        must(::mg_renew(handle_, &why), why);
    }

    // And gives back the memory of the log so far, that which is reserved, too.
    void renew_giving_back() {
        ::mg_why why{0, 0};
        must(::mg_renew_giving_back(handle_, &why), why);
    }

    // What stands, with the names of the pages. The die stays as it is.
    maulgreen::checkpoint checkpoint() {
        maulgreen::checkpoint said;
        said.places.resize(size_.logical);
        said.names.resize(size_.logical);
        said.blocks.resize(size_.blocks);
        said.balances.resize(tasks_);
        ::mg_why why{0, 0};
        must(::mg_checkpoint(handle_, said.places.data(), said.places.size(), said.names.data(), said.names.size(),
                                said.blocks.data(), said.blocks.size(), said.balances.data(), said.balances.size(),
                                &said.spare, &said.part, &why),
             why);
        return said;
    }

    // The checkpoint from which the die was resumed is void: it is resumed from no more.
    void checkpoint_void() { must(::mg_checkpoint_void(handle_)); }

    // What the label of the next program bears, and which block of the part one of the die is.
    std::uint64_t serial() const { return ::mg_serial(handle_); }
    std::uint32_t part_block(std::uint32_t block) const {
        std::uint32_t said = 0;
        must(::mg_part_block(handle_, block, &said));
        return said;
    }

    std::uint32_t now() const { return ::mg_now(handle_); }
    std::uint64_t entries() const { return ::mg_len(handle_); }
    std::uint64_t records() const { return ::mg_records(handle_); }

    // The cell in which a logical page lies, if it lies in one; of a die that is stopped, too.
    std::optional<cell> place(std::uint32_t page) const {
        cell said{};
        must(::mg_place(handle_, page, &said));
        return said.block == MG_NOWHERE ? std::nullopt : std::optional<cell>(said);
    }

    // At most `count` entries of the log, from entry `from` on.
    std::vector<entry> log(std::uint32_t from, std::size_t count) const {
        const std::uint64_t there = entries() > from ? entries() - from : 0;
        std::vector<::mg_entry> read(static_cast<std::size_t>(std::min<std::uint64_t>(there, count)));
        must(::mg_entries(handle_, from, read.data(), read.size()));
        std::vector<entry> said;
        for (const ::mg_entry &e : read) {
            said.push_back({e, std::vector<::mg_waived>(e.waived)});
            if (e.waived)
                must(::mg_entry_waived(handle_, from + static_cast<std::uint32_t>(said.size()) - 1, said.back().waived_ones.data(), e.waived));
        }
        return said;
    }

    job_head job(std::uint32_t number) const {
        job_head said{};
        must(::mg_job(handle_, number, &said));
        return said;
    }

    // Who submitted it: to find that takes a step for each entry before it.
    std::uint32_t caller(std::uint32_t number) const {
        std::uint32_t said = 0;
        must(::mg_caller(handle_, number, &said));
        return said;
    }

    maulgreen::outcome outcome(std::uint32_t job) const {
        maulgreen::outcome said{};
        std::array<name, 64> reads{};
        must(::mg_outcome(handle_, job, &said, reads.data(), reads.size()));
        said.read_names.assign(reads.begin(), reads.begin() + said.reads);
        return said;
    }

    worst_job worst() const {
        worst_job said{};
        must(::mg_worst(handle_, &said));
        return said;
    }

    // The released job or collection that waits, and is due by now, with the earliest deadline, if there is one.
    std::optional<overdue_job> overdue() {
        overdue_job said{};
        const std::uint32_t refusal = ::mg_overdue(handle_, &said);
        if (refusal == MG_NONE_OVERDUE) return std::nullopt;
        must(refusal);
        return said;
    }

    maulgreen::certificate certificate() const {
        maulgreen::certificate said{};
        for (said.listed.resize(64);; said.listed.resize(said.jobs)) {
            must(::mg_certificate(handle_, &said, said.listed.data(), said.listed.size()));
            if (said.jobs <= said.listed.size()) break;
        }
        said.listed.resize(said.jobs);
        return said;
    }

    std::vector<row> rows() const {
        std::vector<row> said(64);
        std::uint32_t total = 0;
        for (;; said.resize(total)) {
            must(::mg_rows(handle_, said.data(), said.size(), &total));
            if (total <= said.size()) break;
        }
        said.resize(total);
        return said;
    }

private:
    friend class mount;
    friend class spares;
    static void must_fit() {
        if (!fits()) throw std::runtime_error("another version of libmaulgreen");
    }
    die(::mg_die *made, const plan &p, std::size_t tasks) : handle_(made), size_(p), tasks_(tasks) {}

    // On the heap, so that a die moves while one of its slots has begun, and so that a handle is never copied.
    ::mg_die *handle_ = nullptr;
    plan size_{};
    std::size_t tasks_ = 0;
};

// A table of the spare blocks of a part: it gives the blocks of a die and of a mount numbers, and where a call of the part failed it
// says which calls come next. It moves and isn't copied, and frees its table.
class spares {
public:
    // For a part of so many blocks on which nothing was done yet, of which these are bad.
    spares(const plan &p, std::uint32_t blocks, const std::vector<std::uint32_t> &bad) {
        die::must_fit();
        must(::mg_spares_new(&handle_, &p, blocks, bad.data(), bad.size()));
    }
    // For one whose power has come: its blocks are told next.
    static spares power_up(const plan &p, std::uint32_t blocks, const std::vector<std::uint32_t> &bad) {
        die::must_fit();
        spares said;
        must(::mg_spares_power_up(&said.handle_, &p, blocks, bad.data(), bad.size()));
        return said;
    }
    spares(const spares &) = delete;
    spares &operator=(const spares &) = delete;
    spares(spares &&other) noexcept : handle_(std::exchange(other.handle_, ::mg_spares{nullptr})) {}
    spares &operator=(spares &&other) noexcept {
        std::swap(handle_, other.handle_);
        return *this;
    }
    ~spares() { ::mg_spares_free(&handle_); }

    // What it needs next. MG_NO_SPARE where a block failed and no spare one was left, MG_DEVICE_FAULT after a fault.
    ::mg_move next() {
        ::mg_move said{};
        must(::mg_spares_next(&handle_, &said));
        return said;
    }
    void tell(const std::vector<label> &labels) { must(::mg_spares_tell(&handle_, labels.data(), labels.size())); }
    // How the part carried that out: MG_MOVE_DONE, MG_MOVE_FAILED or MG_MOVE_FAULT.
    void done(std::uint32_t how) { must(::mg_spares_done(&handle_, how)); }
    void program_failed(std::uint32_t number, std::uint32_t page) { must(::mg_spares_program_failed(&handle_, number, page)); }
    void erase_failed(std::uint32_t number) { must(::mg_spares_erase_failed(&handle_, number)); }
    std::uint32_t block(std::uint32_t number) {
        std::uint32_t said = 0;
        must(::mg_spares_block(&handle_, number, &said));
        return said;
    }
    // What a block of the part is for, MG_USE_BAD .., and its number.
    std::pair<std::uint32_t, std::uint32_t> use(std::uint32_t block) {
        std::uint32_t is = 0, number = 0;
        must(::mg_spares_use(&handle_, block, &is, &number));
        return {is, number};
    }
    std::uint32_t left() { return ::mg_spares_left(&handle_); }

private:
    spares() = default;
    ::mg_spares handle_{nullptr};
};

// A mount of a part after a loss of power, by the labels in its cells. It moves and isn't copied, and frees its mount. Its blocks are
// the part's.
class mount {
public:
    mount(const plan &p, const std::vector<task> &tasks) : size_(p), tasks_(tasks.size()) {
        die::must_fit();
        must(::mg_mount_new(&handle_, &p, tasks.data(), tasks.size()));
    }
    mount(const mount &) = delete;
    mount &operator=(const mount &) = delete;
    mount(mount &&other) noexcept : handle_(std::exchange(other.handle_, ::mg_mount{nullptr})), size_(other.size_), tasks_(other.tasks_) {}
    mount &operator=(mount &&other) noexcept {
        std::swap(handle_, other.handle_);
        std::swap(size_, other.size_);
        std::swap(tasks_, other.tasks_);
        return *this;
    }
    ~mount() { ::mg_mount_free(&handle_); }

    // What it needs next.
    maulgreen::step step() {
        maulgreen::step said{};
        must(::mg_mount_next(&handle_, &said));
        return said;
    }

    // Tells what the cells of the block show that the step names; `page` is MG_NO_LABEL where one isn't good.
    void tell(const std::vector<label> &labels) {
        ::mg_why why{0, 0};
        must(::mg_mount_tell(&handle_, labels.data(), labels.size(), &why), why);
    }

    // The call that the step names was made, and went well.
    void done() { must(::mg_mount_done(&handle_)); }
    std::uint64_t calls_left() { return ::mg_mount_calls_left(&handle_); }

    // The cell of the part from which a page may be read now, if it lies in one.
    std::optional<cell> place(std::uint32_t page) {
        cell said{};
        must(::mg_mount_place(&handle_, page, &said));
        return said.block == MG_NOWHERE ? std::nullopt : std::optional<cell>(said);
    }

    // The die that keeps its plan and begins where it has ended.
    planned end_planned(const std::vector<maulgreen::terms> &terms, std::uint32_t longest, const std::vector<name> &names);

    // The die that begins where it has ended; by logical page the name of what lies there.
    die end(const std::vector<name> &names) {
        auto made = new ::mg_die{nullptr};
        const std::uint32_t code = ::mg_mount_end(&handle_, names.data(), names.size(), made);
        if (code != MG_OK) {
            delete made;
            throw refusal(code);
        }
        return die(made, size_, tasks_);
    }

private:
    ::mg_mount handle_{nullptr};
    plan size_{};
    std::size_t tasks_ = 0;
};

// A die that keeps its plan: tasks ask, and it does the rest. It moves and isn't copied, and frees its die; members that are `const`
// may run beside each other. Slots are begun and ended, and no ask comes between.
class planned {
public:
    planned(const plan &p, const std::vector<task> &tasks, const std::vector<maulgreen::terms> &terms, std::uint32_t longest)
        : size_(p), tasks_(tasks.size()) {
        if (!fits()) throw std::runtime_error("another version of libmaulgreen");
        if (terms.size() != tasks.size()) throw refusal(MG_BAD_TERMS);
        ::mg_unasked why{0, 0};
        must(::mg_planned_new(&handle_, &p, tasks.data(), terms.data(), tasks.size(), longest, &why), why);
    }

    // A die that goes on from a checkpoint. The chip has to be as that says. The checkpoint stands: no slot begins
    // (MG_CHECKPOINT_STANDS) before checkpoint_void.
    planned(const plan &p, const std::vector<task> &tasks, const std::vector<maulgreen::terms> &terms, std::uint32_t longest,
            const maulgreen::checkpoint &c)
        : size_(p), tasks_(tasks.size()) {
        if (!fits()) throw std::runtime_error("another version of libmaulgreen");
        if (terms.size() != tasks.size()) throw refusal(MG_BAD_TERMS);
        ::mg_unresumed why{0, 0, 0};
        must(::mg_planned_resume(&handle_, &p, tasks.data(), terms.data(), tasks.size(), longest, c.places.data(), c.places.size(),
                                 c.names.data(), c.names.size(), c.blocks.data(), c.blocks.size(), c.balances.data(),
                                 c.balances.size(), c.spare, &c.part, &why),
             why);
    }
    planned(const planned &) = delete;
    planned &operator=(const planned &) = delete;
    planned(planned &&other) noexcept
        : handle_(std::exchange(other.handle_, ::mg_planned{nullptr})), size_(other.size_), tasks_(other.tasks_) {}
    planned &operator=(planned &&other) noexcept {
        std::swap(handle_, other.handle_);
        std::swap(size_, other.size_);
        std::swap(tasks_, other.tasks_);
        return *this;
    }
    ~planned() { ::mg_planned_free(&handle_); }

    // Asks for a job, or for a burst, which becomes as many jobs as it takes.
    taken ask(std::uint32_t caller, std::uint32_t task, const std::vector<op> &ops) { return asked(::mg_planned_ask, caller, task, ops); }
    taken ask_all(std::uint32_t caller, std::uint32_t task, const std::vector<op> &ops) { return asked(::mg_planned_ask_all, caller, task, ops); }

    // Begins the present slot: what the device is to do. It is to be ended.
    maulgreen::call begin(std::uint32_t caller) {
        maulgreen::call said{};
        must(::mg_planned_begin(&handle_, caller, &said));
        return said;
    }

    // Ends it: whether the device did that, and the name of what a read gave.
    reply end(bool ok, const name &gave = {}) {
        reply said{};
        std::array<::mg_waived, 16> waived{};
        must(::mg_planned_end(&handle_, ok ? 1 : 0, &gave, &said, waived.data(), waived.size()));
        said.waived_ones.assign(waived.begin(), waived.begin() + said.waived);
        return said;
    }

    // What stands between two slots where nothing that was accepted is left, with the names of the pages. The die stays as it is.
    maulgreen::checkpoint checkpoint() {
        maulgreen::checkpoint said;
        said.places.resize(size_.logical);
        said.names.resize(size_.logical);
        said.blocks.resize(size_.blocks);
        said.balances.resize(tasks_);
        ::mg_why why{0, 0};
        must(::mg_planned_checkpoint(&handle_, said.places.data(), said.places.size(), said.names.data(), said.names.size(),
                                     said.blocks.data(), said.blocks.size(), said.balances.data(), said.balances.size(),
                                     &said.spare, &said.part, &why),
             why);
        return said;
    }

    // The checkpoint from which the die was resumed is void: it is resumed from no more.
    void checkpoint_void() { must(::mg_planned_checkpoint_void(&handle_)); }

    // What the label of the next program bears, and which block of the part one of the die is.
    std::uint64_t serial() const { return ::mg_planned_serial(&handle_); }
    std::uint32_t part_block(std::uint32_t block) const {
        std::uint32_t said = 0;
        must(::mg_planned_part_block(&handle_, block, &said));
        return said;
    }

    // The present slot of the clock of all lives, and the present life.
    std::uint64_t clock() const { return ::mg_planned_clock(&handle_); }
    maulgreen::life life() const {
        maulgreen::life said{};
        must(::mg_planned_life(&handle_, &said));
        return said;
    }

    // How many operations the task's ask has that waits for the next life; 0 where none waits.
    std::uint32_t waiting(std::uint32_t task) const {
        std::uint32_t said = 0;
        must(::mg_planned_waiting(&handle_, task, &said));
        return said;
    }

    job_head job(std::uint32_t number) const {
        job_head said{};
        must(::mg_planned_job(&handle_, number, &said));
        return said;
    }

    maulgreen::outcome outcome(std::uint32_t job) const {
        maulgreen::outcome said{};
        std::array<name, 64> reads{};
        must(::mg_planned_outcome(&handle_, job, &said, reads.data(), reads.size()));
        said.read_names.assign(reads.begin(), reads.begin() + said.reads);
        return said;
    }

    // The cell in which a logical page lies, if it lies in one; of a die that is stopped, too.
    std::optional<cell> place(std::uint32_t page) const {
        cell said{};
        must(::mg_planned_place(&handle_, page, &said));
        return said.block == MG_NOWHERE ? std::nullopt : std::optional<cell>(said);
    }

private:
    template <typename Ask> taken asked(Ask ask, std::uint32_t caller, std::uint32_t task, const std::vector<op> &ops) {
        taken said{};
        ::mg_unasked why{0, 0};
        must(ask(&handle_, caller, task, ops.data(), ops.size(), &said, &why), why);
        return said;
    }
    friend class mount;
    planned(::mg_planned made, const plan &p, std::size_t tasks) : handle_(made), size_(p), tasks_(tasks) {}
    ::mg_planned handle_{nullptr};
    plan size_{};
    std::size_t tasks_ = 0;
};

inline planned mount::end_planned(const std::vector<maulgreen::terms> &terms, std::uint32_t longest, const std::vector<name> &names) {
    ::mg_planned made{nullptr};
    ::mg_unresumed why{0, 0, 0};
    must(::mg_mount_end_planned(&handle_, terms.data(), terms.size(), longest, names.data(), names.size(), &made, &why), why);
    return planned(made, size_, tasks_);
}

} // namespace maulgreen
#endif
