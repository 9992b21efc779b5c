-- | Asks a solver what some measures of a rising function allow, and writes the answers.
--
-- What is written does not depend on the solver: of a model only that is asked which holds in each one.
module Main (main) where

import Data.Ratio (denominator, numerator)
import Numeric (readFloat)
import qualified SimpleSMT as SMT
import SimpleSMT (SExpr (..), Solver, Value (..))
import System.Environment (getArgs)
import System.Exit (die)

main :: IO ()
main = do
  command <- getArgs
  case command of
    [] -> die "usage: Measures SOLVER ARGUMENTS.."
    program : arguments -> do
      solver <- SMT.newSolver program arguments Nothing
      SMT.setLogic solver "QF_UFLRA"
      ask solver
      status <- SMT.stop solver
      putStrLn ("the solver ended: " ++ show status)

-- | Declares a function of which two values are known, and asks what it may be between them.
ask :: Solver -> IO ()
ask solver = do
  f <- function solver "f" 1
  x <- SMT.declare solver "x" SMT.tReal
  y <- SMT.declare solver "y" SMT.tReal
  let at t = f [t]
      rises a b = SMT.implies (SMT.leq a b) (SMT.leq (at a) (at b))
      number = SMT.real
  SMT.assert solver (SMT.eq (at (number 0)) (number 1))
  SMT.assert solver (SMT.eq (at (number 4)) (number 9))
  SMT.assert solver (SMT.andMany [SMT.leq (number 0) x, SMT.leq x y, SMT.leq y (number 4)])
  SMT.assert solver (SMT.andMany [rises (number 0) x, rises x y, rises y (number 4)])
  question solver "two places between the measures" []
    [("1 <= f x <= 9", SMT.and (SMT.leq (number 1) (at x)) (SMT.leq (at x) (number 9)))]
  question solver "the function falls" [SMT.lt (at y) (at x)] []
  question solver "a value above the second measure" [SMT.gt (at x) (number 9)] []
  question solver "equal places with different values" [SMT.eq x y, SMT.distinct [at x, at y]] []
  question solver "both places at the second measure" [SMT.eq x (number 4)]
    [("y", y), ("f y", at y), ("f x / 7", SMT.realDiv (at x) (number 7)), ("x - f y", SMT.sub x (at y))]
  question solver "a line between the measures"
    [SMT.eq x (SMT.realDiv (number 4) (number 3)), SMT.eq (at x) (SMT.add (SMT.mul (number 2) x) (number 1))]
    [("x", x), ("f x", at x), ("the nearer measure", SMT.ite (SMT.lt x (number 2)) (number 0) (number 4))]
  -- The name is that of a level, so it can be declared again.
  SMT.inNewScope solver $ do
    limit <- SMT.declare solver "limit" SMT.tReal
    SMT.assert solver (SMT.andMany [SMT.lt (at x) limit, SMT.lt limit (at y)])
    question solver "a limit is crossed" [] [("x < y", SMT.lt x y)]
  SMT.inNewScope solver $ do
    limit <- SMT.declare solver "limit" SMT.tBool
    SMT.assert solver (SMT.eq limit (SMT.lt (at y) (number 9)))
    question solver "the limit is kept at the end" [SMT.eq y (number 4)] [("limit", limit)]
  question solver "after all levels are closed" [] []

-- | Declares a function of so many real numbers, and gives how it is applied.
function :: Solver -> String -> Int -> IO ([SExpr] -> SExpr)
function solver name parameters = do
  _ <- SMT.declareFun solver name (replicate parameters SMT.tReal) SMT.tReal
  pure (SMT.fun name)

-- | Checks at a level of its own, and writes the answer, and after `sat` the values of some terms.
question :: Solver -> String -> [SExpr] -> [(String, SExpr)] -> IO ()
question solver title stated terms = do
  SMT.push solver
  mapM_ (SMT.assert solver) stated
  answer <- SMT.check solver
  putStrLn (title ++ ": " ++ show answer)
  case answer of
    SMT.Sat | not (null terms) -> do
      values <- SMT.getExprs solver (map snd terms)
      sequence_ [putStrLn ("  " ++ name ++ " = " ++ shown value) | ((name, _), (_, value)) <- zip terms values]
    _ -> pure ()
  SMT.pop solver

-- | Writes a value in one way, whichever of the forms that solvers print it has.
shown :: Value -> String
shown (Bool b) = show b
shown value = maybe ("not a number: " ++ show value) ratio (rational value)
  where
    ratio r
      | denominator r == 1 = show (numerator r)
      | otherwise = show (numerator r) ++ "/" ++ show (denominator r)

-- | Reads `5`, `5.0`, `(- 5)`, `(/ 1 3)`, `(/ (- 1) 3)` and `(- (/ 1 3))`.
rational :: Value -> Maybe Rational
rational (Int n) = Just (fromInteger n)
rational (Real r) = Just r
rational (Other (Atom text)) = case readFloat text of
  [(r, "")] -> Just r
  _ -> Nothing
rational (Other (List [Atom "-", a])) = negate <$> rational (SMT.sexprToVal a)
rational (Other (List [Atom "/", a, b])) = (/) <$> rational (SMT.sexprToVal a) <*> rational (SMT.sexprToVal b)
rational _ = Nothing
