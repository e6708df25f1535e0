// The records of a job by the definitions of docs/MODEL.md, as `plain` and `run` append them: a peer that shares no line with the program.
//
//     direct_sums JOB [-m naive|fast] [-w WORKERS] [-t] > RECORDS
//
// JOB has its scans itself, the program accepts it, and its recordings stand in the working folder. `naive` takes a pair of samples at a
// time, `fast` adds up products of 16 bits in loops that a compiler makes vectors of. -t tells the seconds of values and of sums.
#include <algorithm>
#include <atomic>
#include <chrono>
#include <cstdint>
#include <cstdio>
#include <cstdlib>
#include <cstring>
#include <fstream>
#include <iterator>
#include <map>
#include <mutex>
#include <set>
#include <sstream>
#include <string>
#include <thread>
#include <unordered_map>
#include <vector>

using Int = int64_t;
using Wide = __int128;

struct Entry { Int second; std::vector<Int> numbers; };
struct Place { int thread, index; };
struct Scan { std::string name; Int start, samples; };
struct Station {
  std::string key;
  Int id, bits, chans, frame, head;
  std::vector<std::string> files;
  std::map<std::string, Place> places;
  std::vector<Entry> polys, clocks;
  Int in_frame() const { return (frame - head) * 8 / (bits * chans); }
};
struct Job {
  Int lags = 0, integration = 0, rate = 0, knot = 32768;
  bool autos = false;
  std::vector<Station> stations;
  std::vector<std::pair<std::string, std::string>> products;
  std::vector<Scan> scans;
  std::map<std::string, Int> bands;  // hertz, negative in the lower sideband
};
struct Cell { Int re, im, count; };

Wide floor_div(Wide a, Wide b) { return a / b - (a % b != 0 && (a < 0) != (b < 0)); }

Int second_of(Int year, Int day) {  // of a day's begin, counted from 1 January 1970
  for (Int y = 1970; y < year; y++) day += y % 4 == 0 && (y % 100 != 0 || y % 400 == 0) ? 366 : 365;
  return (day - 1) * 86400;
}

Int second_of(const std::string &time) {
  int y, d, h, m, s;
  if (sscanf(time.c_str(), "%dy%dd%dh%dm%ds", &y, &d, &h, &m, &s) != 5) exit(2);
  return second_of(y, d) + h * 3600 + m * 60 + s;
}

Job read_job(const char *path) {
  Job job;
  std::set<std::string> taken;
  std::ifstream in(path);
  for (std::string line; std::getline(in, line);) {
    std::istringstream words(line.substr(0, line.find('#')));
    std::vector<std::string> f{std::istream_iterator<std::string>(words), {}};
    if (f.empty()) continue;
    auto number = [&](size_t i) { return Int(strtoll(f.at(i).c_str(), nullptr, 10)); };
    auto station = [&]() -> Station & {
      return *std::find_if(job.stations.begin(), job.stations.end(), [&](const Station &s) { return s.key == f[1]; });
    };
    auto entry = [&] {
      Entry made{second_of(f.at(2)), {}};
      for (size_t i = 3; i < f.size(); i++) made.numbers.push_back(number(i));
      return made;
    };
    if (f[0] == "lags") job.lags = number(1);
    else if (f[0] == "integration") job.integration = number(1);
    else if (f[0] == "rate") job.rate = number(1);
    else if (f[0] == "knot") job.knot = number(1);
    else if (f[0] == "auto") job.autos = true;
    else if (f[0] == "station")
      job.stations.push_back({f[1], number(2), number(3), number(4), number(5), f.size() > 6 ? 16 : 32, {}, {}, {}, {}});
    else if (f[0] == "file") station().files.push_back(f[2]);
    else if (f[0] == "chan") station().places[f[2]] = {int(number(3)), int(number(4))};
    else if (f[0] == "clock") station().clocks.push_back(entry());
    else if (f[0] == "poly") station().polys.push_back(entry());
    else if (f[0] == "product") job.products.push_back({f[1], f[2]});
    else if (f[0] == "take") taken.insert(f[1]);
    else if (f[0] == "scan") job.scans.push_back({f[1], second_of(f[2]), number(3)});
    else if (f[0] == "band") job.bands[f[1]] = f[3] == "U" ? number(2) : -number(2);
  }
  auto left = [&](const Scan &scan) { return !taken.empty() && !taken.count(scan.name); };
  job.scans.erase(std::remove_if(job.scans.begin(), job.scans.end(), left), job.scans.end());
  return job;
}

// The data of each frame that counts, by its thread and its number from the scan's start on.
using Frames = std::map<int, std::unordered_map<Int, const uint8_t *>>;

Frames frames_of(const Job &job, const Station &s, const Scan &scan, const std::vector<std::string> &files) {
  Frames found;
  Int a_second = job.rate / s.in_frame();
  for (const std::string &bytes : files)
    for (size_t at = 0; at + s.frame <= bytes.size(); at += s.frame) {
      uint32_t w[4];
      memcpy(w, &bytes[at], 16);
      if ((w[0] >> 30 & 1) != (s.head == 16) || (w[2] & 0xFFFFFF) * 8 != s.frame || Int(1) << (w[2] >> 24 & 31) != s.chans || w[3] >> 31 ||
          (w[3] >> 26 & 31) + 1 != s.bits || (w[3] & 0xFFFF) != s.id || (w[1] & 0xFFFFFF) >= a_second || w[0] >> 31)
        continue;
      int epoch = w[1] >> 24 & 63, year = 2000 + epoch / 2;
      Int second = second_of(year, epoch % 2 == 0 ? 1 : year % 4 == 0 ? 183 : 182) + (w[0] & 0x3FFFFFFF);
      found[w[3] >> 16 & 1023].emplace((second - scan.start) * a_second + (w[1] & 0xFFFFFF), (const uint8_t *)&bytes[at + s.head]);
    }
  return found;
}

const Entry *in_force(const std::vector<Entry> &entries, Int second) {
  const Entry *latest = nullptr;
  for (const Entry &e : entries)
    if (e.second <= second && (!latest || e.second > latest->second)) latest = &e;
  return latest;
}

Int at_knot(const Job &job, const Station &s, const Entry &poly, Int j) {
  Wide sum = 0;
  for (size_t k = poly.numbers.size(); k-- > 0;) sum = poly.numbers[k] + floor_div(sum * j, 1 << 24);
  if (const Entry *clock = in_force(s.clocks, poly.second))
    sum += clock->numbers[0] + floor_div(Wide(clock->numbers[1]) * ((poly.second - clock->second) * job.rate + j * job.knot), job.rate);
  return Int(sum);
}

// The values of a channel at the samples from -lags / 2 on: pairs (re, im), pairs (im, -re), and whether they are there.
struct Values { std::vector<int16_t> plain, turned, there; };

Values values_of(const Job &job, const Station &s, const std::string &channel, const Scan &scan, const Frames &frames) {
  static const int COSINE[16] = {1, 1, 1, 0, 0, -1, -1, -1, -1, -1, -1, 0, 0, 1, 1, 1};
  const size_t length = scan.samples + job.lags;
  Values made{std::vector<int16_t>(2 * length), std::vector<int16_t>(2 * length), std::vector<int16_t>(length)};
  if (!s.places.count(channel) || !job.bands.count(channel) || !frames.count(s.places.at(channel).thread)) return made;
  const auto &thread = frames.at(s.places.at(channel).thread);
  const Int index = s.places.at(channel).index, hertz = job.bands.at(channel), in_frame = s.in_frame();
  const Entry zero{scan.start, {0}}, *poly = nullptr;
  Int knot = -1, first = 0, next = 0, frame = INT64_MIN;
  const uint8_t *data = nullptr;
  for (Int n = 0; n < scan.samples; n++) {
    const Entry *now = s.polys.empty() ? &zero : in_force(s.polys, scan.start + n / job.rate);
    const Int since = n - (now->second - scan.start) * job.rate;
    if (now != poly || since / job.knot != knot) {
      poly = now, knot = since / job.knot;
      first = at_knot(job, s, *poly, knot), next = at_knot(job, s, *poly, knot + 1);
    }
    const Int delay = first + Int(floor_div(Wide(next - first) * (since % job.knot), job.knot));
    const Int place = n + ((delay + (Int(1) << 31)) >> 32), number = Int(floor_div(place, in_frame));
    if (number != frame) {
      auto it = thread.find(frame = number);
      data = it == thread.end() ? nullptr : it->second;
    }
    if (!data) continue;
    const int sector = int(floor_div(Wide(16 * hertz) * delay, Wide(job.rate) << 32) & 15);
    const Int bit = ((place - number * in_frame) * s.chans + index) * s.bits, top = (1 << s.bits) - 1;
    const Int level = 2 * (data[bit / 8] >> bit % 8 & top) - top, i = n + job.lags / 2;
    made.plain[2 * i] = made.turned[2 * i + 1] = int16_t(level * COSINE[sector]);
    made.plain[2 * i + 1] = made.turned[2 * i] = int16_t(level * COSINE[(sector + 12) % 16]);
    made.turned[2 * i + 1] = -made.turned[2 * i + 1];
    made.there[i] = 1;
  }
  return made;
}

// Adds the pairs of the samples `from` to `to` to the cells of all lags. The second station's sample n + lag stands at n + lag + lags / 2.
void add_naive(Int lags, const Values &a, const Values &b, Int from, Int to, Cell *cells) {
  for (Int q = 0; q < lags; q++)
    for (Int n = from; n < to; n++) {
      const Int i = n + lags / 2, j = n + q;
      if (!a.there[i] || !b.there[j]) continue;
      const Int ar = a.plain[2 * i], ai = a.plain[2 * i + 1], br = b.plain[2 * j], bi = b.plain[2 * j + 1];
      cells[q].re += ar * br + ai * bi, cells[q].im += ai * br - ar * bi, cells[q].count += 1;
    }
}

int dot(const int16_t *a, const int16_t *b, Int many) {
  int sum = 0;
  for (Int i = 0; i < many; i++) sum += a[i] * b[i];
  return sum;
}

template <int K> void dots(const int16_t *a, const int16_t *c, const int16_t *b, Int many, Cell *cells) {  // of K lags side by side
  int re[K] = {}, im[K] = {};
  for (Int i = 0; i < many; i++)
    for (int k = 0; k < K; k++) re[k] += a[i] * b[i + 2 * k], im[k] += c[i] * b[i + 2 * k];
  for (int k = 0; k < K; k++) cells[k].re += re[k], cells[k].im += im[k];
}

void add_fast(Int lags, const Values &a, const Values &b, Int from, Int to, Cell *cells) {
  const Int block = 4096;  // sums of at most 450 a pair
  for (; from < to; from += block) {
    const Int many = std::min(block, to - from), i = from + lags / 2, others = many + lags - 1;
    const int16_t *mine = &a.there[i], *theirs = &b.there[from];
    const bool all = std::count(mine, mine + many, 1) == many && std::count(theirs, theirs + others, 1) == others;
    Int lag = 0;
    for (; lag + 4 <= lags; lag += 4) dots<4>(&a.plain[2 * i], &a.turned[2 * i], &b.plain[2 * (from + lag)], 2 * many, cells + lag);
    for (; lag < lags; lag += 2) dots<2>(&a.plain[2 * i], &a.turned[2 * i], &b.plain[2 * (from + lag)], 2 * many, cells + lag);
    for (Int q = 0; q < lags; q++) cells[q].count += all ? many : dot(mine, theirs + q, many);
  }
}

template <typename T> void put(T number) { fwrite(&number, sizeof number, 1, stdout); }
void put_name(const std::string &name) { put(uint16_t(name.size())), fwrite(name.data(), 1, name.size(), stdout); }
double seconds() { return std::chrono::duration<double>(std::chrono::steady_clock::now().time_since_epoch()).count(); }

int main(int argc, char **argv) {
  std::string path, mode = "naive";
  bool timed = false;
  int workers = 1;
  for (int i = 1; i < argc; i++) {
    const std::string word = argv[i];
    if (word == "-t") timed = true;
    else if (word == "-m" && i + 1 < argc) mode = argv[++i];
    else if (word == "-w" && i + 1 < argc) workers = atoi(argv[++i]);
    else path = word;
  }
  if (path.empty() || (mode != "naive" && mode != "fast")) return fprintf(stderr, "direct_sums JOB [-m naive|fast] [-w WORKERS] [-t]\n"), 2;
  const Job job = read_job(path.c_str());
  const auto add = mode == "fast" ? add_fast : add_naive;
  std::vector<std::vector<std::string>> files;  // the bytes of each station's recordings
  std::vector<std::pair<int, int>> baselines;
  for (size_t a = 0; a < job.stations.size(); a++) {
    files.emplace_back();
    for (const std::string &name : job.stations[a].files) {
      std::ifstream in(name, std::ios::binary);
      files[a].emplace_back(std::istreambuf_iterator<char>(in), std::istreambuf_iterator<char>());
    }
    for (size_t b = a; b < job.stations.size(); b++)
      if (a < b || job.autos) baselines.push_back({a, b});
  }
  const size_t scans = baselines.empty() ? 0 : job.scans.size(), count = baselines.size(), each = job.products.size() * count;
  fwrite("VLBIVIS1", 1, 8, stdout);
  put(uint32_t(job.lags)), put(job.integration), put(job.rate), put(uint32_t(job.stations.size()));
  for (const Station &s : job.stations) put_name(s.key);
  put(uint32_t(job.products.size()));
  for (const auto &p : job.products) put_name(p.first), put_name(p.second);
  put(uint32_t(scans));
  for (size_t i = 0; i < scans; i++) {
    put_name(job.scans[i].name), put(job.scans[i].start), put(job.scans[i].samples), put(uint32_t(count));
    for (auto b : baselines) put(uint32_t(b.first)), put(uint32_t(b.second));
  }
  uint64_t records = 0;
  for (size_t number = 0; number < scans; number++) {
    const Scan &scan = job.scans[number];
    double begun = seconds();
    std::vector<std::map<std::string, Values>> known(job.stations.size());
    for (size_t a = 0; a < known.size(); a++) {
      const Frames frames = frames_of(job, job.stations[a], scan, files[a]);
      for (const auto &p : job.products)
        for (const std::string &x : {p.first, p.second})
          if (!known[a].count(x)) known[a][x] = values_of(job, job.stations[a], x, scan, frames);
    }
    double summed = seconds();
    const Int integrations = (scan.samples + job.integration - 1) / job.integration, piece = 65536;
    struct Task { size_t record; Int from, to; };
    std::vector<Task> tasks;
    for (size_t r = 0; r < integrations * each; r++) {
      const Int from = Int(r / each) * job.integration, to = std::min(from + job.integration, scan.samples);
      for (Int n = from; n < to; n += piece) tasks.push_back({r, n, std::min(n + piece, to)});
    }
    std::vector<Cell> cells(integrations * each * job.lags);
    std::atomic<size_t> next{0};
    std::mutex adding;
    auto work = [&] {
      for (size_t i; (i = next++) < tasks.size();) {
        const Task &task = tasks[i];
        const auto &[x, y] = job.products[task.record % each / count];
        const auto [a, b] = baselines[task.record % count];
        std::vector<Cell> mine(job.lags);
        add(job.lags, known[a].at(x), known[b].at(y), task.from, task.to, mine.data());
        std::lock_guard<std::mutex> held(adding);
        Cell *sums = &cells[task.record * job.lags];
        for (Int q = 0; q < job.lags; q++) sums[q].re += mine[q].re, sums[q].im += mine[q].im, sums[q].count += mine[q].count;
      }
    };
    std::vector<std::thread> others;
    for (int i = 1; i < workers; i++) others.emplace_back(work);
    work();
    for (auto &t : others) t.join();
    if (timed) fprintf(stderr, "%s: values %.3f s, sums %.3f s\n", scan.name.c_str(), summed - begun, seconds() - summed);
    for (size_t r = 0; r < integrations * each; r++, records++) {
      put(uint8_t(1)), put(uint32_t(number)), put(uint64_t(r / each)), put(uint32_t(r % each / count)), put(uint32_t(r % count));
      fwrite(&cells[r * job.lags], sizeof(Cell), job.lags, stdout);
    }
  }
  put(uint8_t(255)), put(records);
}
