printf 'skip\n%%%%\n'
yes '' | head -n 65537
