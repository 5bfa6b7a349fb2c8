// "Holds" as a proved answer: from a search whose solver wrote its refutation, or from a certificate that is there.
#pragma once

#include "options.h"
#include "search.h"

// A usage failure unless there is one property, which a certificate is about.
void test_one_property(const std::vector<Chip> &chips, const char *option);

// Makes a certificate of what holds by the solver's word, has it checked, and writes it. Where it is time to stop, the verdict says so; where what was
// made does not certify, a Failure.
void certify(const Chip &chip, const Options &options, Refutation &refutation, Verdict &verdict, Stop &stop);

// the verdict of the certificate that is to be checked; a Failure where it does not certify
Verdict check_certificate(const Chip &chip, const Options &options, Stop &stop);
