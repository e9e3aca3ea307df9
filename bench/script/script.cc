// Plays the lines of a contest as a straightforward C++ program does: problems, hosts, submissions, claims, fetches, results,
// records, renewals, ticks, deaths and shows, with the standard settings. It keeps no audit log and knows no rejudging.
// It is the peer of `farm script` in run.py and hosts.py, and no part of the product.
#include <cstdint>
#include <cstdio>
#include <cstring>
#include <map>
#include <queue>
#include <set>
#include <string>
#include <string_view>
#include <tuple>
#include <unistd.h>
#include <unordered_map>
#include <vector>

using Word = std::string_view;
using Task = std::pair<uint32_t, uint32_t>;

static const Word KINDS[] = {"correct",   "wrong-answer", "run-error",    "timelimit",
                             "no-output", "output-limit", "memory-limit", "judging-error"};
static const int PRIORITIES[] = {1, 30, 99, 99, 10, 99, 99, 99};
static const int GREATEST = 99, LEASE = 60, HELD = 64, EMPTY = -1;

struct Judging {
    uint8_t rank;
    uint32_t first_empty = 0, best = 0;
    int best_kind = EMPTY;
    std::vector<int8_t> row;
    std::vector<bool> handed;

    // Several kinds have the greatest priority, so every empty cell before the best one matters then.
    bool matters(uint32_t at) const {
        return row[at] == EMPTY && (best_kind == EMPTY || PRIORITIES[best_kind] < GREATEST || at < best);
    }
    bool is_final() const { return first_empty == row.size() || !matters(first_empty); }
    void put(uint32_t at, int kind) {
        row[at] = (int8_t)kind;
        while (first_empty < row.size() && row[first_empty] != EMPTY) first_empty++;
        int better = best_kind == EMPTY ? 1 : PRIORITIES[kind] - PRIORITIES[best_kind];
        if (better > 0 || (better == 0 && at < best)) best = at, best_kind = kind;
    }
};

struct Host {
    bool up = false;
    std::set<Task> tasks;
};

struct Problem {
    uint32_t version, tests;
};

struct NameHash {
    using is_transparent = void;
    size_t operator()(Word name) const { return std::hash<Word>()(name); }
};

template <typename T> using Named = std::unordered_map<std::string, T, NameHash, std::equal_to<>>;

struct Lease {
    Host *host;
    uint64_t until;
};

struct TaskHash {
    size_t operator()(const Task &task) const { return ((uint64_t)task.first << 10) + task.second; }
};

struct Farm {
    Named<Problem> problems;
    Named<Host> hosts;
    std::vector<Judging> judgings;
    std::unordered_map<Task, Lease, TaskHash> leases;
    std::set<std::pair<uint64_t, Task>> ends;
    using Open = std::tuple<uint8_t, uint32_t, uint32_t>;
    std::priority_queue<Open, std::vector<Open>, std::greater<>> open;
    uint64_t now = 0;
    std::string out;

    void number(uint64_t n) {
        char digits[20];
        int at = 20;
        do digits[--at] = (char)('0' + n % 10);
        while (n /= 10);
        out.append(digits + at, 20 - at);
    }
    void text(Word word) { out.append(word); }
    void end() { out.push_back('\n'); }
    void reply(Word word) { text(word), end(); }
    void reply(Word word, uint64_t n) { text(word), number(n), end(); }
    void reply(Word word, Word name) { text(word), text(name), end(); }

    static bool is_name(Word word) {
        if (word.empty() || word.size() > 32) return false;
        for (char c : word)
            if (!((c >= 'a' && c <= 'z') || (c >= 'A' && c <= 'Z') || (c >= '0' && c <= '9') || c == '_' || c == '-'))
                return false;
        return true;
    }
    static bool read_number(Word word, uint64_t most, uint64_t &n) {
        if (word.empty() || word.size() > 18 || (word[0] == '0' && word.size() > 1)) return false;
        n = 0;
        for (char c : word) {
            if (c < '0' || c > '9') return false;
            n = n * 10 + (uint64_t)(c - '0');
        }
        return n <= most;
    }
    static bool read_number(Word word, uint64_t &n) { return read_number(word, UINT32_MAX, n); }
    static int read_kind(Word word) {
        for (int kind = 0; kind < 8; kind++)
            if (KINDS[kind] == word) return kind;
        return EMPTY;
    }

    Host *host_of(Word name) {
        auto at = hosts.find(name);
        if (at != hosts.end() && at->second.up) return &at->second;
        reply("no-host ", name);
        return nullptr;
    }
    bool has_task(uint64_t judging, uint64_t test) {
        if (judging == 0 || judging > judgings.size()) return reply("no-judging ", judging), false;
        if (test == 0 || test > judgings[judging - 1].row.size()) return reply("no-test ", test), false;
        return true;
    }
    void release(std::unordered_map<Task, Lease, TaskHash>::iterator lease) {
        auto [judging, test] = lease->first;
        lease->second.host->tasks.erase(lease->first);
        ends.erase({lease->second.until, lease->first});
        leases.erase(lease);
        Judging &kept = judgings[judging - 1];
        if (kept.matters(test - 1)) open.emplace(kept.rank, judging, test);
    }
    void grant(Host *host, Task task) {
        leases[task] = {host, now + LEASE};
        ends.insert({now + LEASE, task});
        host->tasks.insert(task);
    }
    void enter(uint64_t judging, uint64_t test, int kind) {
        Judging &kept = judgings[judging - 1];
        int cell = kept.row[test - 1];
        if (cell == kind) return reply("repeat ", KINDS[cell]);
        if (cell != EMPTY) {
            text("differs "), text(KINDS[cell]), text(" "), reply(KINDS[kind]);
            return;
        }
        kept.put((uint32_t)test - 1, kind);
        auto lease = leases.find({(uint32_t)judging, (uint32_t)test});
        if (lease != leases.end()) release(lease);
        // Leases on cells that do not matter any more end too. Where an empty cell matters, all before it do.
        for (uint32_t last = (uint32_t)kept.row.size(); last > 0 && !kept.matters(last - 1); last--) {
            lease = leases.find({(uint32_t)judging, last});
            if (lease != leases.end()) release(lease);
        }
        reply("counted");
    }

    bool problem(const std::vector<Word> &words) {
        uint64_t tests;
        if (words.size() != 3 || !is_name(words[1]) || !read_number(words[2], tests)) return false;
        if (tests < 1 || tests > 1000) return reply("bad-tests ", tests), true;
        if (problems.count(std::string(words[1]))) return reply("known ", words[1]), true;
        if (problems.size() >= 1000) return reply("full 1000"), true;
        problems[std::string(words[1])] = {1, (uint32_t)tests};
        text("problem "), text(words[1]), reply(" version 1");
        return true;
    }
    bool host(const std::vector<Word> &words) {
        if (words.size() != 2 || !is_name(words[1])) return false;
        auto at = hosts.find(words[1]);
        if (at != hosts.end() && at->second.up) return reply("known ", words[1]), true;
        if (at == hosts.end() && hosts.size() >= 1000) return reply("full 1000"), true;
        hosts[std::string(words[1])].up = true;
        reply("host ", words[1]);
        return true;
    }
    bool submit(const std::vector<Word> &words) {
        if (words.size() < 2 || words.size() > 4 || !is_name(words[1])) return false;
        size_t at = 2;
        uint8_t rank = 1;
        if (at < words.size() && words[at] == "high") rank = 0, at++;
        else if (at < words.size() && words[at] == "normal") at++;
        else if (at < words.size() && words[at] == "low") rank = 2, at++;
        bool broken = at < words.size() && words[at] == "broken";
        if (at + broken != words.size()) return false;
        auto problem = problems.find(words[1]);
        if (problem == problems.end()) return reply("no-problem ", words[1]), true;
        if (judgings.size() >= 100000) return reply("full 100000"), true;
        uint32_t tests = broken ? 0 : problem->second.tests, judging = (uint32_t)judgings.size() + 1;
        judgings.push_back({rank, 0, 0, EMPTY, std::vector<int8_t>(tests, EMPTY), std::vector<bool>(tests)});
        if (!hosts.empty())
            for (uint32_t test = 1; test <= tests; test++) open.emplace(rank, judging, test);
        text("submission "), number(judging), reply(" judging ", judging);
        return true;
    }
    bool claim(const std::vector<Word> &words) {
        if (words.size() != 2 || !is_name(words[1])) return false;
        Host *host = host_of(words[1]);
        if (!host) return true;
        if (host->tasks.size() >= HELD) return reply("holding 64"), true;
        for (; !open.empty(); open.pop()) {
            auto [rank, judging, test] = open.top();
            Judging &kept = judgings[judging - 1];
            if (leases.count({judging, test}) || !kept.matters(test - 1)) continue;
            open.pop();
            grant(host, {judging, test});
            kept.handed[test - 1] = true;
            text("task "), number(judging), text(" "), number(test), reply(" until ", now + LEASE);
            return true;
        }
        reply("nothing");
        return true;
    }
    bool fetch(const std::vector<Word> &words) {
        uint64_t most;
        if (words.size() != 3 || !is_name(words[1]) || !read_number(words[2], 16, most) || most == 0) return false;
        Host *host = host_of(words[1]);
        if (!host) return true;
        if (host->tasks.size() >= HELD) return reply("holding 64"), true;
        uint32_t first = 0, count = 0;
        while (!open.empty() && count < most && host->tasks.size() < HELD) {
            auto [rank, judging, test] = open.top();
            Judging &kept = judgings[judging - 1];
            if (leases.count({judging, test}) || !kept.matters(test - 1)) {
                open.pop();
                continue;
            }
            if (count > 0 && judging != first) break;
            open.pop();
            grant(host, {judging, test});
            kept.handed[test - 1] = true;
            if (count == 0) text("batch "), number(judging), text(" ");
            else text(",");
            number(test), first = judging, count++;
        }
        if (count == 0) return reply("nothing"), true;
        reply(" until ", now + LEASE);
        return true;
    }
    bool result(const std::vector<Word> &words) {
        uint64_t judging, test;
        if (words.size() != 5 || !is_name(words[1]) || !read_number(words[2], judging) || !read_number(words[3], test))
            return false;
        int kind = read_kind(words[4]);
        if (kind == EMPTY) return false;
        if (!host_of(words[1]) || !has_task(judging, test)) return true;
        if (!judgings[judging - 1].handed[test - 1]) return reply("not-handed"), true;
        enter(judging, test, kind);
        return true;
    }
    bool record(const std::vector<Word> &words) {
        uint64_t judging, test;
        if (words.size() != 4 || !read_number(words[1], judging) || !read_number(words[2], test)) return false;
        int kind = read_kind(words[3]);
        if (kind == EMPTY) return false;
        if (has_task(judging, test)) enter(judging, test, kind);
        return true;
    }
    bool renew(const std::vector<Word> &words) {
        uint64_t judging, test;
        if (words.size() != 4 || !is_name(words[1]) || !read_number(words[2], judging) || !read_number(words[3], test))
            return false;
        Host *host = host_of(words[1]);
        if (!host || !has_task(judging, test)) return true;
        Task task(judging, test);
        auto lease = leases.find(task);
        if (lease == leases.end() || lease->second.host != host) return reply("no-lease"), true;
        auto held = host->tasks.lower_bound({(uint32_t)judging, 0});
        for (; held != host->tasks.end() && held->first == judging; ++held) {
            Lease &kept = leases.find(*held)->second;
            ends.erase({kept.until, *held});
            kept.until = now + LEASE;
            ends.insert({kept.until, *held});
        }
        reply("until ", now + LEASE);
        return true;
    }
    bool tick(const std::vector<Word> &words) {
        uint64_t moment, count = 0;
        if (words.size() != 2 || !read_number(words[1], UINT64_MAX, moment)) return false;
        if (moment > now) now = moment;
        for (; !ends.empty() && ends.begin()->first <= now; count++) release(leases.find(ends.begin()->second));
        reply("ended ", count);
        return true;
    }
    bool down(const std::vector<Word> &words) {
        if (words.size() != 2 || !is_name(words[1])) return false;
        Host *host = host_of(words[1]);
        if (!host) return true;
        uint64_t count = 0;
        for (; !host->tasks.empty(); count++) release(leases.find(*host->tasks.begin()));
        host->up = false;
        reply("ended ", count);
        return true;
    }
    bool show(const std::vector<Word> &words) {
        uint64_t judging;
        if (words.size() != 2 || !read_number(words[1], judging)) return false;
        if (judging == 0 || judging > judgings.size()) return reply("no-judging ", judging), true;
        const Judging &kept = judgings[judging - 1];
        if (kept.row.empty()) reply("final compiler-error");
        else if (kept.is_final()) reply("final ", KINDS[kept.best_kind]);
        else reply("pending");
        return true;
    }
    bool play(const std::vector<Word> &words) {
        Word word = words[0];
        if (word == "record") return record(words);
        if (word == "show") return show(words);
        if (word == "submit") return submit(words);
        if (word == "claim") return claim(words);
        if (word == "fetch") return fetch(words);
        if (word == "result") return result(words);
        if (word == "renew") return renew(words);
        if (word == "tick") return tick(words);
        if (word == "down") return down(words);
        if (word == "host") return host(words);
        if (word == "problem") return problem(words);
        return false;
    }
    void line(Word line, std::vector<Word> &words) {
        if (line.size() > 4096) return reply("too-long ", line.size());
        if (!line.empty() && line.back() == '\r') line.remove_suffix(1);
        words.clear();
        for (size_t at = 0; at < line.size();) {
            if (line[at] == ' ') {
                at++;
                continue;
            }
            size_t end = at;
            while (end < line.size() && line[end] != ' ') end++;
            words.push_back(line.substr(at, end - at));
            at = end;
        }
        if (words.empty() || words[0][0] == '#') return;
        if (!play(words)) reply("bad-line");
    }
};

static bool write_all(const std::string &text) {
    for (size_t done = 0; done < text.size();) {
        ssize_t n = write(1, text.data() + done, text.size() - done);
        if (n <= 0) return false;
        done += (size_t)n;
    }
    return true;
}

int main() {
    Farm farm;
    std::vector<char> block(65536);
    std::string part; // the beginning of a line whose end has not come
    std::vector<Word> words;
    for (ssize_t n; (n = read(0, block.data(), block.size())) > 0;) {
        const char *at = block.data(), *last = at + n;
        while (const char *feed = (const char *)memchr(at, '\n', (size_t)(last - at))) {
            if (part.empty()) farm.line(Word(at, (size_t)(feed - at)), words);
            else farm.line(part.append(at, feed), words), part.clear();
            at = feed + 1;
        }
        part.append(at, last);
        if (!write_all(farm.out)) return 5;
        farm.out.clear();
    }
    if (!part.empty()) farm.line(part, words);
    return write_all(farm.out) ? 0 : 5;
}
