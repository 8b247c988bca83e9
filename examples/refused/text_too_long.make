yes 'skip ||' | head -n 8192
printf 'skip\n%%%%\n\n'
