printf 'signal door;\nskip\n%%%%\ndoor\n'
yes door | head -n 6600 | tr '\n' ' '
