#!/usr/bin/env python3
"""Zones to measure, each with the origin trial.example, and that of `senders` with the origin example.com.

    generate.py zone START N    a policy, and eight lists of N random networks in all, which it includes
    generate.py comment N       N bytes `;`, which are no record
    generate.py records N       N records: a policy that asks for two hosts, and hosts with one address each
    generate.py addresses N     a policy that asks for one host, and N addresses of this host
    generate.py exchanges N     a policy with an `mx` term, and N exchanges, each with an address of both families
    generate.py terms N         a record of 1,600 random networks, and N terms `a` behind them
    generate.py brands N        eight policies of N random networks each, of which neighbours share seven eighths
    generate.py senders F N     a policy that asks for the reversed name of each address below list.example.com, and N names
                                there, of random addresses of IPv4 where F is 4, and of IPv6 where it is 6
"""
import ipaddress, random, sys
M64 = (1 << 64) - 1
def draws(x):
    i = 0
    while True:
        x = (x * 6364136223846793005 + 1442695040888963407) & M64
        q = '-' if (i // 8) % 4 == 3 else ''
        if i % 4 == 3: bits, start, n = 128, (0x20010db8 << 96) + ((x >> 32) << 64), 36 + 4 * ((x >> 16) % 8)
        else: bits, start, n = 32, x >> 32, 20 + (x >> 16) % 8
        start = start >> (bits - n) << (bits - n)
        a = str(ipaddress.IPv4Address(start)) if bits == 32 else str(ipaddress.IPv6Address(start))
        yield i, q, bits, a, n
        i += 1
def term(q, bits, a, n): return '%s%s:%s%s' % (q, 'ip4' if bits == 32 else 'ip6', a, '' if n == bits else '/%d' % n)
def quoted(t): return ' '.join('"%s"' % t[i:i + 255] for i in range(0, len(t), 255))
def host4(k): return ipaddress.IPv4Address((10 << 24) + k)
def host6(k): return ipaddress.IPv6Address((0x20010db8 << 96) + k)
def zone(start, n):
    rec = [[] for _ in range(8)]
    for i, q, b, a, l in draws(start):
        if i == n: break
        rec[i % 8].append(term(q, b, a, l))
    print('@ TXT "v=spf1 %s ~all"' % ' '.join('include:n%d.trial.example' % k for k in range(8)))
    for k in range(8): print('n%d TXT %s' % (k, quoted(' '.join(['v=spf1'] + rec[k] + ['?all']))))
def comment(n): sys.stdout.write(';' * n)
def records(n):
    print('@ TXT "v=spf1 a:h0.trial.example a:h1.trial.example -all"')
    for k in range(n - 1): print('h%d A %s' % (k, host4(k)))
def addresses(n):
    print('@ TXT "v=spf1 a:h.trial.example -all"')
    for k in range(n): print('h A %s' % host4(k))
def exchanges(n):
    print('@ TXT "v=spf1 mx -all"')
    for k in range(n): print('@ MX 10 h%d\nh%d A %s\nh%d AAAA %s' % (k, k, host4(k), k, host6(k)))
def terms(n):
    nets = [term(q, b, a, l) for (i, q, b, a, l), _ in zip((d for d in draws(0) if d[2] == 32), range(1600))]
    print('@ TXT %s' % quoted(' '.join(['v=spf1'] + nets + ['a'] * n + ['-all'])))
    print('@ A %s' % host4(0))
def brands(n):
    nets = [term(q, b, a, l) for (i, q, b, a, l), _ in zip(draws(0), range(n + 7 * n // 8))]
    for k in range(8): print('b%d TXT %s' % (k, quoted(' '.join(['v=spf1'] + nets[k * n // 8:k * n // 8 + n] + ['~all']))))
def senders(family, n):
    make, bits = {4: (ipaddress.IPv4Address, 32), 6: (ipaddress.IPv6Address, 128)}[family]
    chance = random.Random(0)
    print('@ TXT "v=spf1 exists:%{ir}.list.example.com -all"')
    for _ in range(n): print('%s.list A 127.0.0.2' % make(chance.getrandbits(bits)).reverse_pointer.rsplit('.', 2)[0])
MODES = {'zone': (zone, 2), 'comment': (comment, 1), 'records': (records, 1), 'addresses': (addresses, 1), 'exchanges': (exchanges, 1), 'terms': (terms, 1), 'brands': (brands, 1), 'senders': (senders, 2)}
if __name__ == '__main__':
    mode, count = MODES.get(sys.argv[1] if len(sys.argv) > 1 else '', (None, 0))
    if mode is None or len(sys.argv) != 2 + count: sys.exit(__doc__)
    mode(*map(int, sys.argv[2:]))
