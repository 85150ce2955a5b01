-- What finance asks of a charge, by short names, and the sum by the name that it has in SQLite.
CREATE VIEW bill AS
SELECT
    to_char("BillingPeriodStart" AT TIME ZONE 'UTC', 'YYYY-MM') AS invoice,
    to_char("ChargePeriodStart" AT TIME ZONE 'UTC', 'YYYY-MM') AS used,
    coalesce("ChargeClass", 'new') AS class,
    "ChargeCategory" AS category,
    "ServiceName" AS service,
    coalesce("RegionName", 'none') AS region,
    coalesce("CommitmentDiscountId", 'none') AS commitment,
    coalesce("SkuPriceId", 'none') AS price,
    "BilledCost" AS billed,
    "EffectiveCost" AS effective,
    "ContractedCost" AS contracted
FROM charges;
CREATE AGGREGATE decimal_sum(numeric) (SFUNC = numeric_add, STYPE = numeric, INITCOND = '0');
