// The core job of spfc done natively and unproved, as a yardstick of speed.
// The recursion is ORTC (Draves, King, Venkatachary, Zill 1999) turned to first-match lists with four verdicts and `all`.
//
//   native [--table] [--time] < LIST        LIST: flat terms in first-match order, any blanks between: -ip4:10.1.0.0/16 ip4:10.0.0.0/8 ~ip6:::/0 -all
//   native --pack DOMAIN SIZE < LIST         also the records of the greedy cut with label _spf and no other texts, or `too big`
//   native --trial START N [--list] [--time]  the same over the networks of generate.py: the fewest terms, the rows, the records below 1,024 octets
//
// Standard output: the chosen list on one line (then the row lines with --table), or the trial line. --time tells milliseconds on standard error.
#include <chrono>
#include <cstdint>
#include <cstdio>
#include <cstdlib>
#include <cstring>
#include <iostream>
#include <iterator>
#include <string>
#include <vector>
using std::string; using std::vector;
typedef unsigned __int128 u128;
enum { FAIL, SOFT, PASS, NEUT };
static const char *SIGN[4] = {"-", "~", "", "?"};

struct Need { uint32_t n[4]; };
struct Node { uint32_t kid; int8_t val; };             // children at kid and kid + 1; a leaf has kid == 0 and a value; the root is node 1

struct Trie {                                          // a verdict for every address; equal halves are merged by tidy()
    vector<Node> a; int bits;
    Trie(int b, int v, size_t room) : bits(b) { a.reserve(room); a.resize(2); a[1] = {0, (int8_t)v}; }
    void split(uint32_t at) { int8_t w = a[at].val; a[at].kid = (uint32_t)a.size(); a.push_back({0, w}); a.push_back({0, w}); }
    void set(u128 start, int len, int v) {             // start is left-adjusted to 128 bits
        uint32_t at = 1;
        for (int d = 0; d < len; d++) {
            if (!a[at].kid) { if (a[at].val == v) return; split(at); }
            at = a[at].kid + (uint32_t)((start >> (127 - d)) & 1);
        }
        a[at] = {0, (int8_t)v};
    }
    bool tidy(uint32_t at) {                           // true if a leaf now
        uint32_t k = a[at].kid;
        if (!k) return true;
        bool l = tidy(k), r = tidy(k + 1);
        if (l && r && a[k].val == a[k + 1].val) { a[at] = {0, a[k].val}; return true; }
        return false;
    }
};
// at every address PASS if src says PASS there, else what dst has
static void overlay(Trie &dst, uint32_t d, const Trie &src, uint32_t s) {
    uint32_t k = src.a[s].kid;
    if (!k) { if (src.a[s].val == PASS) dst.a[d] = {0, PASS}; return; }
    if (!dst.a[d].kid) { if (dst.a[d].val == PASS) return; dst.split(d); }
    uint32_t e = dst.a[d].kid;
    overlay(dst, e, src, k); overlay(dst, e + 1, src, k + 1);
}

struct Term { u128 start; int16_t len; int8_t v, fam; };   // fam 4, 6, or 0 for all

struct Solver {
    const Trie &t; vector<Need> need; uint64_t rows = 0;
    explicit Solver(const Trie &x) : t(x), need(x.a.size()) { calc(1); }
    static void leaf(Need &n, int v) { for (int c = 0; c < 4; c++) n.n[c] = c != v; }
    void calc(uint32_t at) {
        const Node &k = t.a[at];
        if (!k.kid) { leaf(need[at], k.val); return; }
        rows++; calc(k.kid); calc(k.kid + 1);
        uint32_t s[4], m = UINT32_MAX;
        for (int c = 0; c < 4; c++) { s[c] = need[k.kid].n[c] + need[k.kid + 1].n[c]; if (s[c] < m) m = s[c]; }
        for (int c = 0; c < 4; c++) need[at].n[c] = s[c] < 1 + m ? s[c] : 1 + m;
    }
    void list(uint32_t at, u128 start, int len, int c, int fam, vector<Term> &out) const {
        const Node &k = t.a[at];
        if (!k.kid) { if (k.val != c) out.push_back({start, (int16_t)len, k.val, (int8_t)fam}); return; }
        const uint32_t *l = need[k.kid].n, *r = need[k.kid + 1].n; uint32_t m = UINT32_MAX; int d = c;
        for (int x = 0; x < 4; x++) if (l[x] + r[x] < m) { m = l[x] + r[x]; d = x; }
        bool own = l[c] + r[c] > 1 + m; if (!own) d = c;
        list(k.kid, start, len + 1, d, fam, out);
        list(k.kid + 1, start | (u128)1 << (127 - len), len + 1, d, fam, out);
        if (own) out.push_back({start, (int16_t)len, (int8_t)d, (int8_t)fam});
    }
    uint64_t leaves(uint32_t at, int c) const { const Node &k = t.a[at]; return k.kid ? leaves(k.kid, c) + leaves(k.kid + 1, c) : k.val != c; }
    void table(uint32_t at, u128 start, int len, int fam, string &out) const;
};

static string addr(u128 s, int fam) {
    char b[64];
    if (fam == 4) { uint32_t x = (uint32_t)(s >> 96); snprintf(b, sizeof b, "%u.%u.%u.%u", x >> 24, x >> 16 & 255, x >> 8 & 255, x & 255); return b; }
    uint16_t g[8]; for (int i = 0; i < 8; i++) g[i] = (uint16_t)(s >> (112 - 16 * i));
    int best = -1, bl = 1;
    for (int i = 0; i < 8; i++) { int j = i; while (j < 8 && !g[j]) j++; if (j - i > bl) { best = i; bl = j - i; } if (j > i) i = j; }
    string o; 
    for (int i = 0; i < 8; i++) {
        if (i == best) { o += "::"; i += bl - 1; continue; }
        if (!o.empty() && o.back() != ':') o += ":";
        snprintf(b, sizeof b, "%x", g[i]); o += b;
    }
    return o;
}
static void write(const Term &t, string &o) {
    o += SIGN[(int)t.v];
    if (!t.fam) { o += "all"; return; }
    o += t.fam == 4 ? "ip4:" : "ip6:"; o += addr(t.start, t.fam);
    if (t.len != (t.fam == 4 ? 32 : 128)) { o += "/"; o += std::to_string(t.len); }
}
void Solver::table(uint32_t at, u128 start, int len, int fam, string &out) const {
    const Node &k = t.a[at]; if (!k.kid) return;
    const uint32_t *n = need[at].n;
    out += "; row " + addr(start, fam) + "/" + std::to_string(len);
    for (int c = 0; c < 4; c++) out += " " + std::to_string(n[c]);
    out += "\n";
    table(k.kid, start, len + 1, fam, out); table(k.kid + 1, start | (u128)1 << (127 - len), len + 1, fam, out);
}
struct Found { vector<Term> list; uint64_t total, rows, merged; };   // merged: terms of a list without holes, one per largest one-verdict prefix
static Found solve(Trie &t4, Trie &t6, string *table) {
    t4.tidy(1); t6.tidy(1);
    Solver s4(t4), s6(t6);
    uint64_t best = (uint64_t)s4.need[1].n[NEUT] + s6.need[1].n[NEUT]; int all = -1;
    for (int c = 0; c < 3; c++) { uint64_t x = 1 + (uint64_t)s4.need[1].n[c] + s6.need[1].n[c]; if (x < best) { best = x; all = c; } }
    Found f; int c = all < 0 ? NEUT : all;
    s4.list(1, 0, 0, c, 4, f.list); s6.list(1, 0, 0, c, 6, f.list);
    if (all >= 0) f.list.push_back({0, 0, (int8_t)all, 0});
    f.total = best; f.rows = s4.rows + s6.rows; f.merged = (all >= 0) + s4.leaves(1, c) + s6.leaves(1, c);
    if (f.list.size() != best) { fprintf(stderr, "list %zu total %llu\n", f.list.size(), (unsigned long long)best); exit(3); }
    if (table) { s4.table(1, 0, 0, 4, *table); s6.table(1, 0, 0, 6, *table); *table += "; fewest " + std::to_string(best) + "\n"; }
    return f;
}
static bool read_addr(const string &s, int fam, u128 &out) {
    if (fam == 4) { unsigned a, b, c, d; char e; if (sscanf(s.c_str(), "%u.%u.%u.%u%c", &a, &b, &c, &d, &e) != 4) return false; out = (u128)(a << 24 | b << 16 | c << 8 | d) << 96; return true; }
    vector<string> g; string cur; int dbl = -1;
    for (size_t i = 0; i <= s.size(); i++) {
        if (i == s.size() || s[i] == ':') {
            if (!cur.empty()) { g.push_back(cur); cur.clear(); }
            if (i + 1 < s.size() && s[i] == ':' && s[i + 1] == ':') { if (dbl >= 0) return false; dbl = (int)g.size(); i++; }
        } else cur += s[i];
    }
    u128 v = 0; int n = (int)g.size(); if (n > 8 || (dbl < 0 && n != 8)) return false;
    for (int i = 0; i < n; i++) { int pos = dbl >= 0 && i >= dbl ? 8 - (n - i) : i; v |= (u128)strtoul(g[i].c_str(), 0, 16) << (112 - 16 * pos); }
    out = v; return true;
}
static u128 cut(u128 s, int len) { return len == 0 ? 0 : s >> (128 - len) << (128 - len); }
static double now() { return std::chrono::duration<double, std::milli>(std::chrono::steady_clock::now().time_since_epoch()).count(); }

static int pack(const vector<Term> &list, const string &dom, size_t size, vector<size_t> *ends = nullptr) {   // records, or 0
    vector<uint32_t> w; w.reserve(list.size());
    for (auto &t : list) { string s; write(t, s); w.push_back((uint32_t)s.size() + 1); }
    size_t at = 0;
    for (int k = 0; k <= 10; k++) {
        size_t base = (k ? string("_spf" + std::to_string(k) + ".").size() : 0) + dom.size() + 6, rest = 0;
        for (size_t i = at; i < w.size() && base + rest < size; i++) rest += w[i];
        if (base + rest < size) { if (ends) ends->push_back(w.size()); return k + 1; }
        size_t red = 10 + string("_spf" + std::to_string(k + 1) + ".").size() + dom.size(), use = base + red;
        if (use >= size) return 0;
        while (at < w.size() && use + w[at] < size) use += w[at++];
        if (ends) ends->push_back(at);
    }
    return 0;
}
int main(int argc, char **argv) {
    bool table = false, time = false, plist = false; int trial = 0, packing = 0;
    for (int i = 1; i < argc; i++) {
        if (!strcmp(argv[i], "--table")) table = true; else if (!strcmp(argv[i], "--time")) time = true; else if (!strcmp(argv[i], "--list")) plist = true;
        else if (!strcmp(argv[i], "--trial") && i + 2 < argc) { trial = i; i += 2; } else if (!strcmp(argv[i], "--pack") && i + 2 < argc) { packing = i; i += 2; } else { fprintf(stderr, "usage\n"); return 4; }
    }
    double t0 = now(), t1, t2;
    if (trial) {
        uint64_t start = strtoull(argv[trial + 1], 0, 10), x = start; uint32_t n = (uint32_t)strtoul(argv[trial + 2], 0, 10);
        vector<Term> rec[8];
        for (uint32_t i = 0; i < n; i++) {
            x = x * 6364136223846793005ULL + 1442695040888963407ULL;
            int v = (i / 8) % 4 == 3 ? FAIL : PASS;
            if (i % 4 == 3) { int len = 36 + 4 * (int)((x >> 16) % 8); rec[i % 8].push_back({cut((u128)0x20010db8 << 96 | (u128)(x >> 32) << 64, len), (int16_t)len, (int8_t)v, 6}); }
            else { int len = 20 + (int)((x >> 16) % 8); rec[i % 8].push_back({cut((u128)(x >> 32) << 96, len), (int16_t)len, (int8_t)v, 4}); }
        }
        Trie t4(32, SOFT, n * 16 + 64), t6(128, SOFT, n * 16 + 256);
        for (auto &r : rec) {
            Trie r4(32, NEUT, n * 4 + 64), r6(128, NEUT, n * 4 + 256);
            for (size_t i = r.size(); i--;) (r[i].fam == 4 ? r4 : r6).set(r[i].start, r[i].len, r[i].v);
            overlay(t4, 1, r4, 1); overlay(t6, 1, r6, 1);
        }
        t1 = now();
        Found f = solve(t4, t6, nullptr); t2 = now();
        int k = pack(f.list, "trial.example", 1024);
        printf("trial %llu %u fewest %llu rows %llu records %s\n", (unsigned long long)start, n, (unsigned long long)f.total, (unsigned long long)f.rows, k ? std::to_string(k).c_str() : "none");
        if (time) fprintf(stderr, "merged %llu ", (unsigned long long)f.merged);
        if (plist) { string o; for (auto &t : f.list) { if (!o.empty()) o += ' '; write(t, o); } puts(o.c_str()); }
    } else {
        std::ios::sync_with_stdio(false);
        string all((std::istreambuf_iterator<char>(std::cin)), std::istreambuf_iterator<char>());
        vector<Term> l; size_t i = 0;
        while (true) {
            while (i < all.size() && isspace((unsigned char)all[i])) i++;
            if (i >= all.size()) break;
            size_t j = i; while (j < all.size() && !isspace((unsigned char)all[j])) j++;
            string w = all.substr(i, j - i); i = j;
            if (w == "v=spf1") continue;
            int v = PASS; if (strchr("+-~?", w[0])) { v = w[0] == '-' ? FAIL : w[0] == '~' ? SOFT : w[0] == '?' ? NEUT : PASS; w = w.substr(1); }
            if (w == "all") { l.push_back({0, 0, (int8_t)v, 0}); continue; }
            int fam = w.compare(0, 4, "ip4:") == 0 ? 4 : w.compare(0, 4, "ip6:") == 0 ? 6 : 0; if (!fam) { fprintf(stderr, "no flat term: %s\n", w.c_str()); return 4; }
            size_t sl = w.find('/'); int len = sl == string::npos ? (fam == 4 ? 32 : 128) : atoi(w.c_str() + sl + 1);
            u128 s; if (!read_addr(w.substr(4, sl == string::npos ? string::npos : sl - 4), fam, s)) { fprintf(stderr, "no address: %s\n", w.c_str()); return 4; }
            l.push_back({cut(s, len), (int16_t)len, (int8_t)v, (int8_t)fam});
        }
        Trie t4(32, NEUT, l.size() * 16 + 64), t6(128, NEUT, l.size() * 8 + 64);
        for (size_t k = l.size(); k--;) {
            if (!l[k].fam) { t4.set(0, 0, l[k].v); t6.set(0, 0, l[k].v); }
            else (l[k].fam == 4 ? t4 : t6).set(l[k].start, l[k].len, l[k].v);
        }
        t1 = now(); string tab;
        Found f = solve(t4, t6, table ? &tab : nullptr); t2 = now();
        string o; for (auto &t : f.list) { if (!o.empty()) o += ' '; write(t, o); }
        o += "\n"; fputs(o.c_str(), stdout); fputs(tab.c_str(), stdout);
        if (packing) {
            string dom = argv[packing + 1]; vector<size_t> ends; int n = pack(f.list, dom, (size_t)atol(argv[packing + 2]), &ends);
            if (!n) puts("too big");
            for (int k = 0, at = 0; k < n; at = (int)ends[k++]) {
                string r = (k ? "_spf" + std::to_string(k) + "." : string()) + dom + " v=spf1";
                for (size_t j = at; j < ends[k]; j++) { r += ' '; write(f.list[j], r); }
                if (k + 1 < n) r += " redirect=_spf" + std::to_string(k + 1) + "." + dom;
                printf("%zu terms: %s\n", ends[k] - at, r.c_str());
            }
        }
        if (time) fprintf(stderr, "terms %zu merged %llu fewest %llu rows %llu ", l.size(), (unsigned long long)f.merged, (unsigned long long)f.total, (unsigned long long)f.rows);
    }
    if (time) fprintf(stderr, "build %.2f ms, solve %.2f ms, all %.2f ms\n", t1 - t0, t2 - t1, now() - t0);
    return 0;
}
