;;;; The package, octets as texts, and what goes wrong: what all other files use.

(defpackage :chaosnet
  (:use :common-lisp)
  (:shadow #:get)                       ; files are got here, and no properties
  (:export #:with-client #:get #:put #:say #:serve #:text-octets #:chaosnet-error #:refused
           #:connection-ended #:no-reply #:unexpected-reply #:unknown-outcome #:unfit))

(in-package :chaosnet)

(deftype octet () '(unsigned-byte 8))

(defun make-octets (count) (make-array count :element-type 'octet :initial-element 0))

;;; A command of FILE is a string whose character codes are its octets, so that octal 215 is the
;;; one character that ends a line. On a Lisp machine the two functions below become nothing.

(defconstant +return+ (code-char #o215))

(defun octets (string)
  "The octets that STRING stands for."
  (map '(vector octet) #'char-code string))

(defun text (octets)
  "The string that stands for OCTETS."
  (map 'string #'code-char octets))

(defun join (&rest strings)
  "One string. FORMAT won't do: the pretty printer of some Lisp breaks lines in what it joins."
  (apply #'concatenate 'string strings))

(defun line (&rest strings)
  "One string, and a Return behind it."
  (join (apply #'join strings) (string +return+)))

(defun decimal (number) (format nil "~d" number))

(defun begins-p (front string) (eql (length front) (or (mismatch front string) (length front))))

;;; What goes wrong. The report of each condition tells it, with what the other end said.

(define-condition chaosnet-error (error)
  ((text :initarg :text :reader error-text))
  (:report (lambda (condition stream) (write-string (error-text condition) stream))))

(macrolet ((define (name documentation)
             `(define-condition ,name (chaosnet-error) () (:documentation ,documentation))))
  (define refused "The server replied ERROR: the text is its code of three letters and its words.")
  (define connection-ended "The connection was refused, or closed, or isn't known any more.")
  (define no-reply "Nothing came for too long.")
  (define unexpected-reply "A reply came that doesn't answer the command.")
  (define unknown-outcome "The CLOSE of a put got no reply: the server may have the file.")
  (define unfit "The file is too big, or as a text has an octet that wouldn't come back.")
  (define bad-word "A word of the command line isn't of its form."))

(defvar *in-doubt* nil "Is the file put, or isn't it, where no reply comes now?")

(defun fail (condition &rest strings)
  (let ((text (apply #'join strings)))
    (if (and *in-doubt* (member condition '(no-reply connection-ended)))
        (error 'unknown-outcome :text (join "whether it was put isn't known, since its CLOSE got "
                                            "no reply: " text))
        (error condition :text text))))
