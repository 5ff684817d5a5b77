/* Lines of the built programs xetroot and xetrange, which are run as they are, once for each input. */
#include "../second/lines.h"
#include "support.h"

#include <cstdio>
#include <cstdlib>
#include <fcntl.h>
#include <spawn.h>
#include <sys/mman.h>
#include <sys/wait.h>
#include <unistd.h>

namespace {

constexpr const char *COMMANDS[] = {nullptr, "make", "join", "root"};
constexpr size_t LONGEST_TEXT = 60000;

/* A file in memory that a program reads or writes. */
class MemoryFile {
public:
    MemoryFile() : descriptor(memfd_create("fuzz", 0))
    {
        if (descriptor < 0)
            std::abort();
    }

    void fill(const std::string &text)
    {
        if (ftruncate(descriptor, 0) != 0 || lseek(descriptor, 0, SEEK_SET) != 0
            || pwrite(descriptor, text.data(), text.size(), 0) != static_cast<ssize_t>(text.size()))
            std::abort();
    }

    std::string contents() const
    {
        std::string text(static_cast<size_t>(lseek(descriptor, 0, SEEK_END)), 0);
        if (pread(descriptor, text.data(), text.size(), 0) != static_cast<ssize_t>(text.size()))
            std::abort();
        return text;
    }

    const int descriptor;
};

/* A run of a program: xetroot without a command, else xetrange. */
class Run {
public:
    Run(const char *command, const std::string &text)
    {
        for (size_t i = 0; i < 3; i++)
            files()[i].fill(i == 0 ? text : "");
        const char *folder = std::getenv("YUREWHA_PROGRAMS");
        const std::string path = std::string(folder ? folder : ".") + (command ? "/xetrange" : "/xetroot");
        char *arguments[] = {const_cast<char *>(path.c_str()), const_cast<char *>(command), nullptr};
        char *environment[] = {nullptr};
        pid_t child;
        if (posix_spawn(&child, path.c_str(), actions(), nullptr, arguments, environment) != 0) {
            std::fprintf(stderr, "%s can't be run: YUREWHA_PROGRAMS names its folder\n", path.c_str());
            std::exit(2);
        }
        while (waitpid(child, &status, 0) != child)
            continue;
    }

    /* The exit status that a shell would show. */
    unsigned exit_status() const
    {
        return static_cast<unsigned>(WIFEXITED(status) ? WEXITSTATUS(status) : 128 + WTERMSIG(status));
    }

    std::string written() const { return files()[1].contents(); }
    std::string printed() const { return files()[2].contents(); }

private:
    int status = 0;

    static MemoryFile *files()
    {
        static MemoryFile made[3];
        return made;
    }

    static posix_spawn_file_actions_t *actions()
    {
        static posix_spawn_file_actions_t made;
        static bool is_made = false;
        if (!is_made) {
            posix_spawn_file_actions_init(&made);
            for (int i = 0; i < 3; i++)
                posix_spawn_file_actions_adddup2(&made, files()[i].descriptor, i);
            is_made = true;
        }
        return &made;
    }
};

/* The text that an input spells: bytes below 80 (hex) stand for themselves, and the others for whole parts of lines. */
class Spelling {
public:
    Spelling(Input &input, second::Lists &lists) : input(input), lists(lists)
    {
        while (!input.is_empty() && text.size() < LONGEST_TEXT)
            add(input.byte());
    }

    std::string text;

private:
    Input &input;
    second::Lists &lists;

    static std::string pair(const second::Hash &hash, const std::string &size) { return second::hex_of(hash) + " " + size; }

    void add(uint8_t byte)
    {
        static constexpr const char *PARTS[] = {
            "--\n", "@", " ", "18446744073709551615", "18446744073709551614", "18446744073709551616", "9223372036854775808",
            "+", "00", "\r\n", "@0\n", "{\"at_end\":false,\"at_start\":false,\"levels\":[", "],\"nodes\":[", "]}\n", "true", "\n"};
        const uint64_t low = byte & 15u;
        if (byte < 0x80)
            text += static_cast<char>(byte);
        else if (byte < 0xA0)
            text += pair(second::random_from_seed(byte & 31u), std::to_string(100 * (byte & 31u))) + "\n";
        else if (byte < 0xB0)
            text += pair({low, 0, 0, low}, "1") + "\n";
        else if (byte < 0xC0)
            text += PARTS[low];
        else if (byte < 0xD0)
            text += second::hex_of(second::random_from_seed(low)) + " ";
        else if (byte < 0xE0)
            add_many(low);
        else if (byte < 0xF0)
            repeat(1 + low);
        else
            change(low);
    }

    /* A list: each pair in a line, or the range that xetrange makes of it. */
    void add_many(uint64_t kind)
    {
        const second::Nodes nodes = drawn_nodes(input);
        if (kind < 8 && second::total_size(nodes))
            text += lists.line_of(nodes);
        else
            for (const second::Node &node : nodes)
                text += pair(node.hash, std::to_string(node.size)) + "\n";
    }

    size_t last_line() const
    {
        const size_t newline = text.size() < 2 ? std::string::npos : text.rfind('\n', text.size() - 2);
        return newline == std::string::npos ? 0 : newline + 1;
    }

    void repeat(uint64_t times)
    {
        const std::string line = text.substr(last_line());
        for (; times > 0 && text.size() < LONGEST_TEXT; times--)
            text += line;
    }

    /* Changes a byte in the last line. */
    void change(uint64_t how)
    {
        const size_t first = last_line(), length = text.size() - first;
        if (length == 0)
            return;
        const size_t at = first + (input.byte() + 256u * (how / 4)) % length;
        if (how % 4 == 0)
            text.erase(at, 1);
        else if (how % 4 == 1)
            text[at] = static_cast<char>(input.byte());
        else if (how % 4 == 2)
            text.insert(at, 1, static_cast<char>(input.byte()));
        else
            text[at] = static_cast<char>(text[at] ^ 1);
    }
};

second::Answer answer_of(size_t command, const std::string &text, const second::Lists &lists)
{
    switch (command) {
    case 0:
        return second::answer_of_xetroot(text);
    case 1:
        return second::answer_of_make(text);
    case 2:
        return second::answer_of_join(text, lists);
    default:
        return second::answer_of_root(text, lists);
    }
}

bool is_output(const std::string &text)
{
    return text.size() == 140 && text.substr(0, 5) == "xorb " && text.substr(69, 6) == "\nfile " && text[139] == '\n'
           && second::from_hex(text.substr(5, 64)) && second::from_hex(text.substr(75, 64));
}

/* The hashes of ranges aren't known if some of them come from no list. */
bool is_right(size_t command, const std::string &written, const second::Answer &answer)
{
    if (answer.is_known)
        return written == answer.written;
    if (command == 3)
        return is_output(written);
    const second::Reading read = second::read_subtree(written);
    return read.says_subtree() && !read.subtree.at_start && !read.subtree.at_end && written.back() == '\n'
           && written == second::json_text(read.subtree) + "\n" && second::total_size(read.subtree) == answer.size;
}

}  // namespace

/* The first byte says which command is run, and the others spell its input. */
extern "C" int LLVMFuzzerTestOneInput(const uint8_t *data, size_t size)
{
    Input input(data, size);
    const size_t command = input.below(4);
    second::Lists lists;
    const std::string text = Spelling(input, lists).text;
    const second::Answer answer = answer_of(command, text, lists);
    const Run run(COMMANDS[command], text);
    seen(static_cast<Seen>(EXIT + command), run.exit_status());
    seen(LENGTH, text.size());
    seen(FAULT_LENGTH, answer.printed.size());
    EXPECT(run.exit_status() == answer.status);
    EXPECT(run.printed() == answer.printed);
    EXPECT(is_right(command, run.written(), answer));
    return 0;
}
