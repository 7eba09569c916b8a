"""fill.py FILE..: comment paragraphs with a line over 110 columns are filled anew at 110."""
import pathlib,re,sys,textwrap
for f in sys.argv[1:]:
    p=pathlib.Path(f); lines=p.read_text().split("\n"); out=[]; i=0; mark="//" if f.endswith(".rt") else "--"
    while i<len(lines):
        m=re.match(rf"( *){mark} (?=\S)",lines[i])
        if not m: out.append(lines[i]); i+=1; continue
        ind=m.group(1); j=i
        while j<len(lines) and re.match(rf"{ind}{mark} \S",lines[j]): j+=1
        para=lines[i:j]
        if any(len(l)>110 for l in para):
            text=" ".join(l[len(ind)+3:] for l in para)
            out+=[f"{ind}{mark} {l}" for l in textwrap.wrap(text,110-len(ind)-3,break_long_words=False,break_on_hyphens=False)]
        else: out+=para
        i=j
    p.write_text("\n".join(out))
