printf 'signal s0'
for number in $(seq 256); do printf ',\n  s%d' "$number"; done
printf ';\nskip\n%%%%\n\n'
