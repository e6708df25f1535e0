// Writes a job and its recordings: noise of a normal law, of which a part is common to all stations, in levels of 1, 2 or 4 bits.
//
//     noise_job FOLDER SEED [NAME=VALUE ..]
//
// All numbers are drawn from SEED, but those that are said: stations=3 channels=1 lags=64 samples=100000 rate=7680000, a multiple of 7,680;
// bits=421, a digit for each station, the last one for those behind it too; turn=1000, the samples that a sector lasts where it turns fastest,
// 0 where no delay grows; still=1, the first stations whose delay then does not; spoilt=0, how many in 1,000 frames are not as they should be.
#include <algorithm>
#include <cmath>
#include <cstdint>
#include <cstdio>
#include <cstdlib>
#include <cstring>
#include <map>
#include <random>
#include <string>
#include <vector>

using Int = int64_t;

static std::mt19937_64 random_words;
static std::map<std::string, Int> said;
static std::string text;

Int below(Int many) { return Int(random_words() % uint64_t(many)); }
Int one_of(std::initializer_list<Int> these) { return these.begin()[below(Int(these.size()))]; }
Int either(const char *name, Int drawn) { return said.count(name) ? said[name] : drawn; }  // what is said, or else what is drawn
template <typename... T> void line(const char *form, T... fields) {
  char room[300];
  snprintf(room, sizeof room, form, fields...);
  text += std::string(room) + "\n";
}

double normal(uint64_t row, Int place) {  // the sample of a row of noise: four parts of a word of SplitMix64, of variance 1
  uint64_t z = row * 0xD1342543DE82EF95 + uint64_t(place) * 0x9E3779B97F4A7C15;
  z = (z ^ z >> 30) * 0xBF58476D1CE4E5B9, z = (z ^ z >> 27) * 0x94D049BB133111EB, z ^= z >> 31;
  return (double((z & 65535) + (z >> 16 & 65535) + (z >> 32 & 65535) + (z >> 48)) - 131070) / 37837.2;
}

int main(int argc, char **argv) {
  if (argc < 3) return fprintf(stderr, "noise_job FOLDER SEED [NAME=VALUE ..]\n"), 2;
  const std::string folder = argv[1];
  const uint64_t seed = strtoull(argv[2], nullptr, 10);
  random_words.seed(seed);
  for (int i = 3; i < argc; i++)
    if (const std::string word = argv[i]; word.find('=') != std::string::npos)
      said[word.substr(0, word.find('='))] = strtoll(word.c_str() + word.find('=') + 1, nullptr, 10);

  const Int stations = either("stations", one_of({1, 2, 2, 3, 4})), channels = either("channels", one_of({1, 1, 2, 4}));
  const Int lags = either("lags", one_of({2, 4, 6, 10, 32, 64, 130, 512})), work = lags * stations * stations * channels;
  const bool random = !said.count("samples");  // whether the scan's length is drawn, and what hangs on it
  const Int samples = either("samples", 1 + below(std::max<Int>(500, 8000000 / work))), scans = random ? one_of({1, 1, 2}) : 1;
  const Int rate = either("rate", 7680 * one_of({1, 1, 2, 5, 100, 4000})), spoilt = either("spoilt", one_of({0, 30, 200}));
  const Int turned = either("turn", -1), start = 5, day = rate * 86400;
  const Int integration = random ? 1 + samples / one_of({1, 1, 2, 3}) - below(samples / 9 + 1) : samples;
  const double steps = double(one_of({1, 3, 30, 300})) / 100 * double(one_of({1, 1, 10}));  // by which a delay grows in a scan
  const bool same = below(2), alone = stations == 1 || (random && below(4) == 0);  // all channels of one band; a station with itself
  const char *side = below(2) ? "U" : "L";
  auto time = [&](Int second) { return "2010y001d00h00m" + std::string(second < 10 ? "0" : "") + std::to_string(second) + "s"; };

  const Int least = turned > 0 ? turned : one_of({1, 7, 33, 1000});  // samples that a sector lasts where it turns fastest
  const Int hertz = std::clamp<Int>(Int(double(rate) * double(samples) / (16.0 * double(least) * steps)), 1, (Int(1) << 40) - 1);
  Int knot = 32768;
  while (double(knot) * steps > double(samples) || (random && knot > 1 && below(4) != 0)) knot /= 2;
  const Int epoch = std::min<Int>(4194304, 1 + samples / one_of({1, 1, 4}));
  line("lags %ld\nintegration %ld\nepoch %ld\nknot %ld", lags, std::max<Int>(1, integration), epoch, knot);
  if (alone) line("auto");
  for (Int s = 0; s < stations; s++) {
    const std::string digits = said.count("bits") ? std::to_string(said["bits"]) : "1244";
    const Int bits = digits[said.count("bits") ? std::min<size_t>(s, digits.size() - 1) : below(4)] - '0';
    const Int parts = below(3) ? channels : 1, threads = channels / parts;
    const Int in_frame = random ? 64 * one_of({1, 3, 8, 15, 24, 60, 120}) : 7680, a_second = rate / in_frame;
    const bool legacy = below(4) == 0, still = turned < 0 ? below(3) == 0 : turned == 0 || s < either("still", 0);
    const Int head = legacy ? 16 : 32, size = in_frame * bits * parts / 8, offset = below(9) - 4;
    line("station S%ld %ld %ld %ld %ld%s\nfile S%ld s%ld.vdif", s, s + 1, bits, parts, head + size, legacy ? " legacy" : "", s, s);
    for (Int c = 0; c < channels; c++) line("chan S%ld X%ld %ld %ld", s, c, c / parts, c % parts);
    const double slope = steps / double(samples) * double(one_of({1, -1})) * double(1 + below(4)) / 4;  // samples a sample
    const Int grows = Int(slope * 4294967296.0 * double(knot) * 16777216.0), fine = below(Int(1) << 32) - (Int(1) << 31);
    if (below(3) == 0) line("clock S%ld %s %ld %ld", s, time(below(3)).c_str(), fine, below(1 << 20));
    if (still) {
      for (Int scan = 0; scan < scans; scan++) line("poly S%ld %s %ld", s, time(start + 10 * scan).c_str(), (offset << 32) + fine);
    } else {
      const Int c2 = below(3) ? 0 : below(std::max<Int>(1, std::abs(grows) / 9));
      const Int early = rate + samples < knot << 24 ? below(2) : 0;  // a polynomial has 2^24 knots
      const Int c0 = (offset << 32) + fine - Int(slope * double(early * rate) * 4294967296.0);
      line("poly S%ld %s %ld %ld %ld", s, time(start - early).c_str(), c0, grows, c2);
      if (samples > rate && below(2)) line("poly S%ld %s %ld %ld", s, time(start + 1).c_str(), (offset << 32) + fine, -grows);
      if (scans > 1) line("poly S%ld %s %ld %ld", s, time(start + 10).c_str(), (offset << 32) + fine, -grows);
    }
    FILE *out = fopen((folder + "/s" + std::to_string(s) + ".vdif").c_str(), "wb");
    if (!out) return perror("noise_job"), 1;
    const double spacing = bits == 4 ? 0.335 : 0.9957;  // of the thresholds; one bit has only that at 0
    const Int codes = Int(1) << bits, margin = below(3) * in_frame;
    Int frames = 0;
    std::vector<uint8_t> frame(head + size);
    for (Int n = 0; n < scans; n++)  // frames of all threads from a little before the scan to a little behind it
      for (Int k = (start + 10 * n) * a_second - margin / in_frame; k * in_frame < (start + 10 * n) * rate + samples + margin; k++)
        for (Int thread = 0; thread < threads; thread++) {
          // 0 left out, 1 invalid, 2 invalid and good, 3 twice, 4 another station's; the first frame is good, since else no slot may agree
          const Int kind = frames++ > 0 && below(1000) < spoilt ? below(5) : 9;
          for (Int slot = kind == 0 ? 1 : 0; slot < (kind == 2 || kind == 3 ? 2 : 1); slot++) {
            const uint32_t invalid = slot == 0 && (kind == 1 || kind == 2), lost = kind == 4 ? 99 : 0;
            uint32_t words[4] = {invalid << 31 | uint32_t(legacy) << 30 | uint32_t(k / a_second), 20u << 24 | uint32_t(k % a_second),
                                 uint32_t(__builtin_ctzll(parts)) << 24 | uint32_t((head + size) / 8),
                                 uint32_t(bits - 1) << 26 | uint32_t(thread) << 16 | uint32_t(s + 1 + lost)};
            std::fill(frame.begin(), frame.end(), 0);
            memcpy(frame.data(), words, 16);
            for (Int i = 0; i < in_frame * parts; i++) {
              const Int place = k * in_frame + i / parts, channel = thread * parts + i % parts;
              const uint64_t common = seed * 4096 + uint64_t(same ? 0 : channel);
              const uint64_t own = seed * 4096 + 64 + uint64_t(s * 128 + slot * 64 + channel);
              const double seen = 0.7 * normal(common, place - offset) + 0.714 * normal(own, place + day);
              const Int code = std::clamp<Int>(Int(std::floor(seen / spacing)) + codes / 2, 0, codes - 1);
              frame[head + i * bits / 8] |= uint8_t(code << i * bits % 8);
            }
            fwrite(frame.data(), 1, frame.size(), out);
          }
        }
    fclose(out);
  }
  for (Int c = 0; c < channels; c++) line("product X%ld X%ld", c, c);
  if (same && channels > 1) line("product X1 X0");
  line("rate %ld", rate);
  for (Int n = 0; n < scans; n++) line("scan G%ld %s %ld", n, time(start + 10 * n).c_str(), samples);
  for (Int c = 0; c < channels; c++) line("band X%ld %ld %s", c, same ? hertz : hertz + c * 1000, same ? side : c % 2 ? "L" : "U");
  FILE *job = fopen((folder + "/job").c_str(), "wb");
  if (!job) return perror("noise_job"), 1;
  fwrite(text.data(), 1, text.size(), job), fclose(job);
}
