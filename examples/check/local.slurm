{
  "slurmVersion": 2,
  "validationOutputFilters": {
    "prefixFilters": [],
    "bgpsecFilters": [],
    "aspaFilters": [
      { "customerAsid": 64511, "comment": "its record names a provider that it has left" }
    ]
  },
  "locallyAddedAssertions": {
    "prefixAssertions": [],
    "bgpsecAssertions": [],
    "aspaAssertions": [
      { "customerAsid": 64504, "providers": [64502], "comment": "a network that has no record yet, and told us" }
    ]
  }
}
