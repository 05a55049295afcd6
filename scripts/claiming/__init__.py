"""How scripts/claims checks documents against the code, and writes docs/reference/ and maps of lemmas.

    places     files of the repository, its crates, and faults
    markdown   a document without its fenced blocks: code spans, links, headings
    items      what has a name: functions with their clauses, types, definitions, lemmas
    code       the items of a .rt file
    specs      the items of an .antt file, and the sentences above definitions
    reach      which definitions a contract applies, and these in turn
    claims     the claims of a crate's README
    wrapping   text in lines of 100 columns
    linking    a link at each function and definition of a claim
    pages      docs/reference/CLAUSES.md and DEFINITIONS.md
    carried    docs/reference/CARRIED.md, from scripts/theorems.carried
    proof_map  proofs/README.md of a crate that has one
    naming     whether each name of a claim exists, and fits the contract it is named for
    mutants    whether each mutant stands at a claim
    lemmas     whether each lemma is used, and stands once
    links      whether each link leads somewhere
    mentions   whether paths and names in the documents exist
    pairs      whether the clauses that documents name belong to the function beside them
    columns    whether lines are short
    whole      all of these over one repository
    sample     the small repository of the self-test, and its faults
"""
