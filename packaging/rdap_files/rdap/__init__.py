"""Writes the tables of a registry as static answers of RDAP: a file for each domain, name server
and registrar, without any contact."""
