-- What finance asks of a charge, by short names. Each column is text, and a null is an empty text.
CREATE VIEW bill AS
SELECT
    substr(BillingPeriodStart, 1, 7) AS invoice,
    substr(ChargePeriodStart, 1, 7) AS used,
    CASE ChargeClass WHEN '' THEN 'new' ELSE ChargeClass END AS class,
    ChargeCategory AS category,
    ServiceName AS service,
    CASE RegionName WHEN '' THEN 'none' ELSE RegionName END AS region,
    CASE CommitmentDiscountId WHEN '' THEN 'none' ELSE CommitmentDiscountId END AS commitment,
    CASE SkuPriceId WHEN '' THEN 'none' ELSE SkuPriceId END AS price,
    BilledCost AS billed,
    EffectiveCost AS effective,
    ContractedCost AS contracted
FROM charges;
