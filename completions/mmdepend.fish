# Completes the options of mmdepend and their words, in fish. Put this file into ~/.config/fish/completions.

# begin options: made by `python3 -m tables`; change crates/mm_line or tables/words.py instead
complete -c mmdepend -l only -x -a "'|-'" -d 'Report on the axioms of this typecode alone'
complete -c mmdepend -l report -x -a '(__fish_append , all matrix counts usage citations proofs statements)' -d 'Write these parts of the report'
complete -c mmdepend -l form -x -a '1 2' -d 'A digit for each column, or for each four'
complete -c mmdepend -l essential -d 'Count what the logical part of a proof cites'
complete -c mmdepend -l open -d 'Count a theorem whose proof is ? as an axiom'
complete -c mmdepend -l against -r -F -d 'Write what the database has and this one has not'
complete -c mmdepend -l and-report -d 'Write the report on the database behind that'
complete -c mmdepend -l workers -x -a '1 2 4 8 16 32 64' -d 'Check the proofs by N threads'
complete -c mmdepend -l pieces -x -a '1 2 4 8 16 32 64' -d 'Read the text in N pieces'
complete -c mmdepend -s h -l help -d 'Print the options and the statuses'
complete -c mmdepend -s V -l version -d 'Print the version'
# end options
