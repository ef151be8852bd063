// ranks STREAM [ANSWERS]: fuses a stream of jobs on all ranks of an MPI run. `help` below says how it is used.
//
// Rank 0 reads the stream and gives a job to each rank that has fewer than eight; what comes back it writes in the stream's order. It
// works as well: a thread of its own takes jobs as another rank does, so that all messages are the first thread's. A rank's memory grows
// with its jobs and is kept. No rank spins: one that waits asks again after a pause, so that more ranks than processors do no harm.
#include "growing.hpp"

#define OMPI_SKIP_MPICXX // the calls of C alone
#define MPICH_SKIP_MPICXX
#include <mpi.h>

#include <cerrno>
#include <chrono>
#include <condition_variable>
#include <cstdio>
#include <cstring>
#include <deque>
#include <fstream>
#include <iostream>
#include <map>
#include <mutex>
#include <optional>
#include <string>
#include <thread>

namespace {

using Bytes = std::vector<std::uint8_t>;

const char *const help =
    R"(usage: mpirun -n RANKS ranks STREAM [ANSWERS]

Fuses every job of STREAM ('-': standard input), each behind its length in 4 bytes, the lowest first. Prints a line for each job and
then how many gave each number. ANSWERS gets, for each job in the stream's order, its length in 4 bytes, then one byte of refusal
number and the bytes of the answer. Both are the same for any number of ranks. A refused job stops nothing; where the stream ends
inside a job, what is left of it is 1.
Status: 0 the whole stream was fused, 1 it ended inside a job, 2 trouble: a file that cannot be read or written, or wrong words.
)";

enum Tag { job_tag = 1, done_tag, end_tag };

constexpr std::size_t most_bytes = 32768; // of a job
constexpr std::size_t at_once = 8;        // jobs that a rank has: some milliseconds of work, until rank 0 looks again

// A job's record: its number, then the bytes of its answer. Memory that cannot be had is a room that is too small.
Bytes fused(const Bytes &job, growing::Bench &bench)
{
    std::uint64_t told = 12;
    try {
        told = bench.run([&](solid::Room &room, std::span<std::uint8_t> answer) { return solid::fuse(job, room, answer); });
    } catch (const std::bad_alloc &) {
    }
    const auto answer = bench.answer(told);
    Bytes out(1 + answer.size());
    out[0] = static_cast<std::uint8_t>(solid::number(told));
    std::copy(answer.begin(), answer.end(), out.begin() + 1);
    return out;
}

// Jobs behind their lengths, one after another.
class Stream {
public:
    explicit Stream(std::istream &in) : in_(in) {}

    // The next job, of one that is longer than any job can be a byte more than that; none at the end. Where the stream ends inside a job,
    // what is left of it is no job, and `cut` holds from then on.
    std::optional<Bytes> next()
    {
        std::uint8_t head[4];
        const std::size_t got = read(head, 4);
        if (got == 0 || cut_)
            return std::nullopt;
        const std::size_t length = head[0] | head[1] << 8 | head[2] << 16 | std::size_t{head[3]} << 24;
        Bytes job(std::min(length, most_bytes + 1));
        cut_ = got < 4 || read(job.data(), job.size()) < job.size() || !skip(length - job.size());
        return cut_ ? Bytes{} : job;
    }

    bool cut() const { return cut_; }
    bool failed() const { return in_.bad(); }

private:
    std::size_t read(std::uint8_t *to, std::size_t n)
    {
        in_.read(reinterpret_cast<char *>(to), static_cast<std::streamsize>(n));
        return static_cast<std::size_t>(in_.gcount());
    }

    bool skip(std::size_t n)
    {
        in_.ignore(static_cast<std::streamsize>(n));
        return n == 0 || static_cast<std::size_t>(in_.gcount()) == n;
    }

    std::istream &in_;
    bool cut_ = false;
};

// What came of all jobs: a line for each, the sums at the end, and the records.
class Table {
public:
    explicit Table(std::ostream *answers) : answers_(answers) {}

    // The record of a job, in any order.
    void put(std::size_t place, Bytes record)
    {
        waiting_.emplace(place, std::move(record));
        for (; waiting_.contains(done_); done_++) {
            const auto at = waiting_.find(done_);
            write(at->second);
            waiting_.erase(at);
        }
    }

    void print_sums(bool cut) const
    {
        if (cut)
            std::printf("the stream ends inside job %zu: what is left of it is 1\n", done_);
        std::printf("jobs %zu bodies %zu shells %zu facets %zu\n", done_, bodies_, shells_, facets_);
        for (const auto &[number, jobs] : numbers_)
            std::printf("answer %u jobs %zu: %s\n", number, jobs, solid::reason(number));
    }

private:
    void write(const Bytes &record)
    {
        const unsigned number = record[0];
        numbers_[number]++;
        std::printf("job %zu answer %u", done_ + 1, number);
        if (number == 0)
            count(std::span(record).subspan(1));
        std::printf("\n");
        if (answers_ == nullptr)
            return;
        for (std::size_t i = 0; i < 4; i++)
            answers_->put(static_cast<char>(record.size() >> (8 * i) & 255));
        answers_->write(reinterpret_cast<const char *>(record.data()), static_cast<std::streamsize>(record.size()));
    }

    void count(std::span<const std::uint8_t> answer)
    {
        const auto bodies = solid::bodies_of(answer);
        std::size_t shells = 0, facets = 0;
        for (const auto &body : bodies) {
            shells += body.shells.size();
            for (const auto &shell : body.shells)
                facets += shell.facets.size();
        }
        std::printf(" bodies %zu shells %zu facets %zu", bodies.size(), shells, facets);
        bodies_ += bodies.size(), shells_ += shells, facets_ += facets;
    }

    std::ostream *answers_;
    std::map<std::size_t, Bytes> waiting_;
    std::map<unsigned, std::size_t> numbers_;
    std::size_t done_ = 0, bodies_ = 0, shells_ = 0, facets_ = 0;
};

// The thread that fuses for rank 0.
class Own {
public:
    Own() : thread_([this] { work(); }) {}

    ~Own()
    {
        give(std::nullopt);
        thread_.join();
    }

    // A job, or none at the end.
    void give(std::optional<Bytes> job)
    {
        const std::lock_guard hold(lock_);
        given_.push_back(std::move(job));
        more_.notify_one();
    }

    // A record that is done, in the order in which the jobs were given.
    std::optional<Bytes> take()
    {
        const std::lock_guard hold(lock_);
        if (done_.empty())
            return std::nullopt;
        Bytes record = std::move(done_.front());
        done_.pop_front();
        return record;
    }

private:
    std::optional<Bytes> next()
    {
        std::unique_lock hold(lock_);
        more_.wait(hold, [this] { return !given_.empty(); });
        std::optional<Bytes> job = std::move(given_.front());
        given_.pop_front();
        return job;
    }

    void work()
    {
        growing::Bench bench;
        while (const std::optional<Bytes> job = next()) {
            Bytes record = fused(*job, bench);
            const std::lock_guard hold(lock_);
            done_.push_back(std::move(record));
        }
    }

    std::mutex lock_;
    std::condition_variable more_;
    std::deque<std::optional<Bytes>> given_;
    std::deque<Bytes> done_;
    std::thread thread_;
};

void pause() { std::this_thread::sleep_for(std::chrono::microseconds(50)); }

// A message of a rank, or of any; none where there is none yet.
struct Message {
    int from, tag;
    Bytes bytes;
};

std::optional<Message> received(int from)
{
    int is_there = 0, size = 0;
    MPI_Status status;
    MPI_Iprobe(from, MPI_ANY_TAG, MPI_COMM_WORLD, &is_there, &status);
    if (!is_there)
        return std::nullopt;
    MPI_Get_count(&status, MPI_BYTE, &size);
    Message out{status.MPI_SOURCE, status.MPI_TAG, Bytes(static_cast<std::size_t>(size))};
    MPI_Recv(out.bytes.data(), size, MPI_BYTE, out.from, out.tag, MPI_COMM_WORLD, MPI_STATUS_IGNORE);
    return out;
}

// What rank 0 knows of a rank: the jobs that it has, each with its place and, of another rank, its bytes as long as they are on their way.
struct Given {
    std::size_t place;
    Bytes job;
    MPI_Request sent;
};

// Gives the jobs out and takes the records back.
class Desk {
public:
    Desk(int ranks, Stream &stream, Table &table) : hands_(static_cast<std::size_t>(ranks)), stream_(stream), table_(table) {}

    void run()
    {
        give_all();
        while (has_given()) {
            if (!take_any())
                pause();
            give_all();
        }
    }

private:
    // One job to each rank in turn, as long as one has too few.
    void give_all()
    {
        for (std::size_t many = 0; many < at_once; many++)
            for (std::size_t rank = 0; rank < hands_.size(); rank++)
                if (hands_[rank].size() <= many && !at_end_)
                    give(rank);
    }

    void give(std::size_t rank)
    {
        std::optional<Bytes> job = stream_.next();
        at_end_ = !job.has_value();
        if (at_end_)
            return;
        Given &given = hands_[rank].emplace_back(Given{jobs_++, std::move(*job), MPI_REQUEST_NULL});
        if (rank == 0)
            own_.give(std::move(given.job));
        else
            MPI_Isend(given.job.data(), static_cast<int>(given.job.size()), MPI_BYTE, static_cast<int>(rank), job_tag, MPI_COMM_WORLD,
                      &given.sent);
    }

    bool take_any()
    {
        if (std::optional<Bytes> record = own_.take()) {
            take(0, std::move(*record));
            return true;
        }
        std::optional<Message> message = received(MPI_ANY_SOURCE);
        if (message)
            take(static_cast<std::size_t>(message->from), std::move(message->bytes));
        return message.has_value();
    }

    // A rank gives its records in the order of its jobs.
    void take(std::size_t rank, Bytes record)
    {
        Given &given = hands_[rank].front();
        MPI_Wait(&given.sent, MPI_STATUS_IGNORE);
        table_.put(given.place, std::move(record));
        hands_[rank].pop_front();
    }

    bool has_given() const
    {
        return std::any_of(hands_.begin(), hands_.end(), [](const auto &hand) { return !hand.empty(); });
    }

    std::vector<std::deque<Given>> hands_;
    Stream &stream_;
    Table &table_;
    Own own_;
    std::size_t jobs_ = 0;
    bool at_end_ = false;
};

// Every other rank: a job in, its record out, until the end is told.
void serve()
{
    growing::Bench bench;
    for (;;) {
        const std::optional<Message> message = received(0);
        if (!message) {
            pause();
            continue;
        }
        if (message->tag == end_tag)
            return;
        const Bytes record = fused(message->bytes, bench);
        MPI_Send(record.data(), static_cast<int>(record.size()), MPI_BYTE, 0, done_tag, MPI_COMM_WORLD);
    }
}

int trouble(const std::string &what)
{
    std::fprintf(stderr, "ranks: %s\n", what.c_str());
    return 2;
}

// Rank 0's work between two opened files.
int lead(int ranks, std::istream &in, std::ofstream *answers)
{
    const auto start = std::chrono::steady_clock::now();
    Stream stream(in);
    Table table(answers);
    Desk(ranks, stream, table).run();
    table.print_sums(stream.cut());
    const double seconds = std::chrono::duration<double>(std::chrono::steady_clock::now() - start).count();
    std::fprintf(stderr, "ranks: %d ranks, %.3f seconds\n", ranks, seconds);
    if (answers != nullptr)
        answers->close();
    if (stream.failed())
        return trouble("the stream cannot be read to its end");
    if (std::fflush(stdout) != 0 || (answers != nullptr && !*answers))
        return trouble("what was answered cannot be written");
    return stream.cut() ? 1 : 0;
}

// The files opened before any job is given out.
int lead(int ranks, const std::string &from, const std::string &to)
{
    std::ifstream file;
    if (from != "-") {
        file.open(from, std::ios::binary);
        if (!file)
            return trouble("cannot read " + from + ": " + std::strerror(errno));
    }
    std::ofstream answers;
    if (!to.empty()) {
        answers.open(to, std::ios::binary);
        if (!answers)
            return trouble("cannot write " + to + ": " + std::strerror(errno));
    }
    return lead(ranks, from == "-" ? std::cin : file, to.empty() ? nullptr : &answers);
}

} // namespace

int main(int count, char **words)
{
    int provided = 0, rank = 0, ranks = 1, status = 0;
    MPI_Init_thread(&count, &words, MPI_THREAD_FUNNELED, &provided);
    MPI_Comm_rank(MPI_COMM_WORLD, &rank);
    MPI_Comm_size(MPI_COMM_WORLD, &ranks);
    const std::vector<std::string> all(words + std::min(count, 1), words + count);
    const bool asks = all.size() == 1 && (all[0] == "--help" || all[0] == "-h");
    if (asks || all.empty() || all.size() > 2) {
        if (rank == 0)
            std::fputs(help, asks ? stdout : stderr);
        status = asks ? 0 : 2;
    } else if (provided < MPI_THREAD_FUNNELED) {
        status = rank == 0 ? trouble("this MPI allows no second thread") : 2;
    } else if (rank == 0) {
        status = lead(ranks, all[0], all.size() == 2 ? all[1] : "");
        for (int other = 1; other < ranks; other++)
            MPI_Send(nullptr, 0, MPI_BYTE, other, end_tag, MPI_COMM_WORLD);
    } else {
        serve();
    }
    MPI_Bcast(&status, 1, MPI_INT, 0, MPI_COMM_WORLD);
    MPI_Finalize();
    return status;
}
