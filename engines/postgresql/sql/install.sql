-- The extension is made once for the files after this one; the samples are those of the folder samples/, and the two sections those of samples/sections/.
CREATE EXTENSION duplicate_bridge;

CREATE TABLE samples (name text PRIMARY KEY, record bytea);
INSERT INTO samples VALUES
    ('claim', '\x06012A540FD03FA959503FABFEA540040000E022000030CA889CC2A91EBAC9A020250060E28459030770'),
    ('doubled-down', '\x080B2A540FD03FA959503FABFEA540038E018080001A677573E57D946385B4BCDCD0CB13EE491C0EB551C6A889ECB0AA482EB2600809439840A11648C180'),
    ('passed-out', '\xFFFF2A540FD03FA959503FABFEA5400200000000'),
    ('refused-card', '\x02032A540FD03FA959503FABFEA540020E000008CA88A700'),
    ('refused-short', '\xFFFF2A540FD03FA959503FABFEA54002000000'),
    ('revoke-two-tricks', '\x100C2A540FD03FA959503FABFEA5400480008280500001A1800809638A11440C1CF9B75B2A22730AA47AEB2681AD504CD0BCE4B13EEC91C17594E57E385B50'),
    ('slam', '\x04035555557FFFFFFAAAAAA80000000380400F80001A00D1B3D00B67521387D41BA85623C8D82BE95A3409DC3C2A5E444AE04C6B62548BE45CAC6664CC80');

CREATE TABLE sections (section text, record bytea);
INSERT INTO sections VALUES
    ('A', '\x06012a540fd03fa959503fabfea540040000e022000030ca889cc2a91ebac9a020250060e28459030770'),
    ('A', '\x06022a540fd03fa959503fabfea540030000e000030ca889cc2a91ebac9a020250060e2845903077'),
    ('A', '\x06032a540fd03fa959503fabfea540040000e018000030ca889cc2a91ebac9a020250060e28459030770'),
    ('A', '\x04035555557ffffffaaaaaa80000000380400f80001a00d1b3d00b67521387d41ba85623c8d82be95a3409dc3c2a5e444ae04c6b62548be45cac6664cc80'),
    ('B', '\x06042a540fd03fa959503fabfea540040000e022000030ca889cc2a91ebac9a020250060e28459030770'),
    ('B', '\x06052a540fd03fa959503fabfea540030000e000030ca889cc2a91ebac9a020250060e2845903077'),
    ('B', '\x06062a540fd03fa959503fabfea540030000e000030ca889cc2a91ebac9a020250060e2845903076'),
    ('B', '\x04042a540fd03fa959503fabfea5400200000000');

-- Every function may run in a parallel plan, and answers by its arguments alone; only the two steps that see nulls are not strict.
SELECT p.proname FROM pg_proc p JOIN pg_depend d ON d.objid = p.oid AND d.classid = 'pg_proc'::regclass
    JOIN pg_extension e ON d.refobjid = e.oid AND d.refclassid = 'pg_extension'::regclass AND d.deptype = 'e'
    WHERE e.extname = 'duplicate_bridge' AND (p.proparallel <> 's' OR p.provolatile <> 'i') ORDER BY 1;
SELECT p.proname FROM pg_proc p JOIN pg_depend d ON d.objid = p.oid AND d.classid = 'pg_proc'::regclass
    JOIN pg_extension e ON d.refobjid = e.oid AND d.refclassid = 'pg_extension'::regclass AND d.deptype = 'e'
    WHERE e.extname = 'duplicate_bridge' AND NOT p.proisstrict AND p.prokind = 'f' ORDER BY 1;
SELECT opcname, amvalidate(oid) FROM pg_opclass WHERE opcname LIKE 'tally%' ORDER BY 1;
