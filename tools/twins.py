# Functions whose bodies agree but for names, types and numbers: python3 tools/twins.py [ROOT]
import re, sys, glob, collections
root = sys.argv[1] if len(sys.argv) > 1 else '.'
def end(s, i, o, c):
    d = 0
    while True:
        d += (s[i] == o) - (s[i] == c)
        if d == 0: return i
        i += 1
groups = collections.defaultdict(list)
for f in sorted(glob.glob(root + '/crates/*/src/*.rt')):
    s = re.sub(r'//[^\n]*', '', open(f).read())
    for m in re.finditer(r'^(?:pub )?(?:extern "C" )?fn (\w+)', s, re.M):
        j = end(s, s.index('(', m.end()), '(', ')') + 1
        while True:
            k = s.index('{', j)
            if not re.search(r'\b(requires|ensures)\b', s[j:k]): break
            j = end(s, k, '{', '}') + 1
        body = s[k:end(s, k, '{', '}') + 1]
        names = {}
        def name(t):
            w = t.group(0)
            if w in ('let','mut','if','else','while','for','in','return','match','loop','as','break','continue','true','false'): return w
            if re.match(r'^[0-9]', w): return '0'
            return names.setdefault(w, 'n%d' % len(names))
        shape = re.sub(r"[\w]+", name, re.sub(r'b?"[^"]*"', '""', re.sub(r'\s+', ' ', body)))
        if len(shape) > 60: groups[shape].append('%s::%s' % (f.split('/crates/')[-1].split('/')[0] if '/crates/' in f else f.split('crates/')[1].split('/')[0], m.group(1)))
n = 0
for shape, fs in sorted(groups.items(), key=lambda x: -len(x[1])):
    if len(fs) > 1: n += 1; print(len(fs), ' '.join(fs))
print(n, 'groups,', sum(len(f) for f in groups.values() if len(f) > 1), 'functions')
