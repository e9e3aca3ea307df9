// The default validator's rules, written straightforwardly in C++, to compare speed with.
// validator FLAGS ANSWER OUTPUT ends with 42 where the output is accepted, and with 43 where it is not.
#include <cstdint>
#include <cstdio>
#include <cstdlib>
#include <optional>
#include <sstream>
#include <string>
#include <string_view>

using i128 = __int128;

static i128 power_of_ten(int n) {
  i128 power = 1;
  while (n-- > 0) power *= 10;
  return power;
}

static const i128 WIDE = power_of_ten(25);
static const i128 JUDGE_LIMIT = power_of_ten(24);

struct Flags {
  bool letter_case = false;
  bool space = false;
  std::optional<i128> relative;
  std::optional<i128> absolute;
};

static bool is_space(char c) { return c == ' ' || (c >= 9 && c <= 13); }
static bool is_digit(char c) { return c >= '0' && c <= '9'; }
static char folded(char c) { return c >= 'A' && c <= 'Z' ? c + 32 : c; }

// The value in units of 10^-12 of a decimal that is not wide.
static std::optional<i128> read_decimal(std::string_view word) {
  size_t at = 0;
  bool negative = false;
  if (at < word.size() && (word[at] == '+' || word[at] == '-')) negative = word[at++] == '-';
  size_t whole = at;
  while (at < word.size() && is_digit(word[at])) at++;
  size_t whole_len = at - whole;
  size_t fraction = at, fraction_len = 0;
  if (at < word.size() && word[at] == '.') {
    fraction = ++at;
    while (at < word.size() && is_digit(word[at])) at++;
    fraction_len = at - fraction;
  }
  if (whole_len + fraction_len == 0) return std::nullopt;
  int exponent = 0;
  if (at < word.size()) {
    if (word[at] != 'e' && word[at] != 'E') return std::nullopt;
    at++;
    bool lower = false;
    if (at < word.size() && (word[at] == '+' || word[at] == '-')) lower = word[at++] == '-';
    size_t len = word.size() - at;
    if (len < 1 || len > 4) return std::nullopt;
    for (; at < word.size(); at++) {
      if (!is_digit(word[at])) return std::nullopt;
      exponent = exponent * 10 + (word[at] - '0');
    }
    if (lower) exponent = -exponent;
  }
  // Digits count as long as they stand for at least a unit; zeros follow where there are too few.
  int64_t taken = (int64_t)whole_len + 12 + exponent;
  i128 size = 0;
  for (size_t i = 0; i < whole_len && taken > 0; i++, taken--) {
    size = size * 10 + (word[whole + i] - '0');
    if (size >= WIDE) return std::nullopt;
  }
  for (size_t i = 0; i < fraction_len && taken > 0; i++, taken--) {
    size = size * 10 + (word[fraction + i] - '0');
    if (size >= WIDE) return std::nullopt;
  }
  for (; taken > 0 && size > 0; taken--) {
    size *= 10;
    if (size >= WIDE) return std::nullopt;
  }
  return negative ? -size : size;
}

static bool agrees(const Flags& flags, std::string_view answer, std::string_view output) {
  if (answer.size() == output.size()) {
    bool same = true;
    for (size_t i = 0; i < answer.size() && same; i++)
      same = flags.letter_case ? answer[i] == output[i] : folded(answer[i]) == folded(output[i]);
    if (same) return true;
  }
  if (!flags.relative && !flags.absolute) return false;
  auto judge = read_decimal(answer);
  if (!judge) return false;
  i128 judge_size = *judge < 0 ? -*judge : *judge;
  if (judge_size >= JUDGE_LIMIT) return false;
  auto team = read_decimal(output);
  if (!team) return false;
  i128 difference = *team - *judge;
  if (difference < 0) difference = -difference;
  if (flags.relative && difference * 1000000000000 <= *flags.relative * judge_size) return true;
  return flags.absolute && difference <= *flags.absolute;
}

struct Reader {
  const char* at;
  const char* end;
  std::string_view gap, token;
  bool next() {
    const char* start = at;
    while (at < end && is_space(*at)) at++;
    gap = {start, (size_t)(at - start)};
    start = at;
    while (at < end && !is_space(*at)) at++;
    token = {start, (size_t)(at - start)};
    return !token.empty();
  }
};

static bool accepts(const Flags& flags, const std::string& answer, const std::string& output) {
  Reader a{answer.data(), answer.data() + answer.size(), {}, {}};
  Reader o{output.data(), output.data() + output.size(), {}, {}};
  for (;;) {
    bool more_answer = a.next(), more_output = o.next();
    if (flags.space && a.gap != o.gap) return false;
    if (more_answer != more_output) return false;
    if (!more_answer) return true;
    if (!agrees(flags, a.token, o.token)) return false;
  }
}

static std::string read_file(const char* path) {
  std::FILE* file = std::fopen(path, "rb");
  if (!file) std::exit(1);
  std::fseek(file, 0, SEEK_END);
  std::string text(std::ftell(file), '\0');
  std::rewind(file);
  if (std::fread(text.data(), 1, text.size(), file) != text.size()) std::exit(1);
  std::fclose(file);
  return text;
}

static Flags read_flags(const char* text) {
  Flags flags;
  std::istringstream words(text);
  std::string word, value;
  while (words >> word) {
    if (word == "case_sensitive") flags.letter_case = true;
    if (word == "space_change_sensitive") flags.space = true;
    if (word.rfind("float_", 0) == 0) {
      words >> value;
      auto amount = read_decimal(value);
      if (word != "float_absolute_tolerance") flags.relative = amount;
      if (word != "float_relative_tolerance") flags.absolute = amount;
    }
  }
  return flags;
}

int main(int argc, char** argv) {
  if (argc != 4) return 2;
  Flags flags = read_flags(argv[1]);
  std::string answer = read_file(argv[2]), output = read_file(argv[3]);
  return accepts(flags, answer, output) ? 42 : 43;
}
